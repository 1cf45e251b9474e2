#!/usr/bin/env bash
# Says where docs/calls.md and the sources differ, and fails then: public functions without a row, rows without a
# function, and clauses that a row names in parentheses and its functions don't have. Laws, whose bodies are empty, have
# no rows. A clause that stands as "NAME of" is one of any function of the crate.
set -u
cd "$(dirname "$0")/.." || exit 1
differs=$(awk '
function name_at_front(text) {
    sub(/^ +/, "", text)
    sub(/[^A-Za-z0-9_].*/, "", text)
    return text
}

# What stands behind the parameters of "<A, B<C>> NAME".
function behind_parameters(text,    i, letter, depth) {
    if (text !~ /^</) return text
    for (i = 1; i <= length(text); i++) {
        letter = substr(text, i, 1)
        depth += (letter == "<") - (letter == ">")
        if (depth == 0) return substr(text, i + 1)
    }
}

function begin_function(name) {
    current = crate " " (owner == "" ? name : owner "::" name)
    exporter[current] = crate " " (owner == "" ? name : owner)
    place[current] = FILENAME ":" FNR
    indent = $0
    sub(/[^ ].*/, "", indent)
    in_signature = 1
}

function keep_clause(text,    kind) {
    kind = name_at_front(text)
    sub(/^ *(ensures|requires)\*? */, "", text)
    clause[current, text ~ /^\{/ ? kind : name_at_front(text)] = 1
    clause[crate, text ~ /^\{/ ? kind : name_at_front(text)] = 1
}

function export_names(text,    names, count, i) {
    gsub(/[a-z_0-9]+::/, "", text)
    gsub(/pub use|[{},;]/, " ", text)
    count = split(text, names, " ")
    for (i = 1; i <= count; i++) exported[crate " " names[i]] = 1
}

function is_public(function_name) {
    return function_name in for_c || function_name in exporter && exporter[function_name] in exported
}

function check_clauses(cell, functions, count,    group, name, found, i) {
    while (match(cell, /\([^()]*\)/)) {
        group = substr(cell, RSTART, RLENGTH)
        cell = substr(cell, RSTART + RLENGTH)
        while (match(group, /`[A-Za-z_]+`( of `[A-Za-z_]+`| of )?/)) {
            name = name_at_front(substr(group, RSTART + 1, RLENGTH))
            found = substr(group, RSTART, RLENGTH) ~ / of / && (crate, name) in clause
            group = substr(group, RSTART + RLENGTH)
            for (i = 1; i <= count; i++) found = found || (functions[i], name) in clause
            if (!found) print "docs/calls.md:" FNR ": no clause " name " in " functions[1]
        }
    }
}

function check_row(cells,    functions, count, text, i) {
    text = cells[2]
    while (match(text, /`[A-Za-z_:]+`/)) {
        functions[++count] = crate " " substr(text, RSTART + 1, RLENGTH - 2)
        text = substr(text, RSTART + RLENGTH)
    }
    for (i = 1; i <= count; i++) {
        if (!is_public(functions[i])) print "docs/calls.md:" FNR ": no function " functions[i]
        has_row[functions[i]] = 1
    }
    for (i = 3; i <= 6; i++) check_clauses(cells[i], functions, count)
}

FILENAME ~ /\.md$/ {
    if (/^## /) crate = $2
    if (/^\| `/) {
        split($0, cells, "|")
        check_row(cells)
    }
    next
}

FNR == 1 {
    split(FILENAME, path, "/")
    crate = path[2]
    owner = ""
    of_trait = in_signature = in_use = 0
}

/^pub use / && FILENAME ~ /\/(lib|main)\.rt$/ { use = ""; in_use = 1 }
in_use { use = use " " $0 }
in_use && /;$/ { export_names(use); in_use = 0 }

/^impl/ { owner = behind_parameters(substr($0, 5)); of_trait = owner ~ / for / }
/^impl/ { owner = of_trait ? owner : name_at_front(owner) }
/^pub trait / { owner = name_at_front($3); of_trait = 1 }
/^}/ { owner = ""; of_trait = in_signature = 0 }

/^pub fn / { begin_function(name_at_front($3)) }
/^pub extern "C" fn / { begin_function(name_at_front($5)); for_c[current] = 1 }
/^    pub fn / && owner != "" { begin_function(name_at_front($3)) }
/^    fn / && of_trait { begin_function(name_at_front($2)) }

in_signature && /^ +(ensures|requires)\*? / { keep_clause($0) }
in_signature && $0 ~ "^" indent "([^ ].*)?[{]}?$" { in_signature = 0; if (/\{}$/) law[current] = 1 }

END {
    for (each in exporter)
        if (is_public(each) && !(each in law) && !(each in has_row)) print place[each] ": no row for " each
}
' crates/*/src/*.rt docs/calls.md) || exit 1
if [ -n "$differs" ]; then
    sort -u <<<"$differs" >&2
    exit 1
fi
