#!/usr/bin/env bash
# Measures what the gate costs from nothing: the processor seconds of each crate's proofs, of its tests with their
# proofs, and of its must-fail edits, for the last commit. It works on a copy, with a copy of the toolchain, beside
# which nothing was kept that was proved before.
# Usage, at the top of the checkout: docs/gate-cost.sh [NAME..]   With names, the crates below them are built uncounted.
set -euo pipefail
shopt -s inherit_errexit
room=$(mktemp -d)
trap 'rm -rf "$room"' EXIT
kit=$(dirname "$(rt doc)")
# What was proved is kept beside the kit.
cp -al "$kit" "$room/kit" 2>/dev/null || cp -a "$kit" "$room/kit"
mkdir "$room/copy"
git archive HEAD | tar -x -C "$room/copy"
cd "$room/copy"

declare -A uses wanted needed
names=()
while IFS=: read -r name rest; do
    name=${name%% *}
    if [[ $name && $name != \#* ]]; then
        names+=("$name")
        uses[$name]=$rest
    fi
done <crates.txt

# Marks a crate and those below it.
need() {
    local dep
    needed[$1]=yes
    for dep in ${uses[$1]}; do
        if [[ ${uses[$dep]+set} && ! ${needed[$dep]+set} ]]; then need "$dep"; fi
    done
}

for name in "${@:-${names[@]}}"; do
    wanted[$name]=yes
    need "$name"
done

# Runs rt in a folder, and gives the processor seconds that it took: IN ARGUMENTS..
cost() (
    cd "$1"
    shift
    if ! "$room/kit/bin/rt" "$@" >"$room/log" 2>&1; then
        cat "$room/log" >&2
        exit 1
    fi
    # The second line has what the commands took that ended.
    times >"$room/times"
    awk -F '[ms ]' 'NR == 2 { printf "%.0f\n", 60 * ($1 + $4) + $2 + $5 }' "$room/times"
)

proofs() {
    local check lib
    check=$(cost "crates/$1" check)
    lib=0
    if [[ -f crates/$1/src/lib.rt ]]; then lib=$(cost "crates/$1" lib); fi
    echo $((check + lib))
}

# The gate proves a crate with its tests from nothing.
tests() {
    rm -rf "crates/$1/out/incremental"
    if grep -rq '#\[test\]' "crates/$1/src"; then cost "crates/$1" test; else echo 0; fi
}

edits() {
    if compgen -G "crates/$1/must-fail/*.edit" >/dev/null; then cost . must-fail "$1" --anew; else echo 0; fi
}

row() {
    printf '| %-13s | %6s | %6s | %6s |\n' "$@"
}

row Crate proofs tests edits
row --- ---: ---: ---:
of=(0 0 0)
all=(0 0 0)
# crates.txt lists lower crates first.
for name in "${names[@]}"; do
    if [[ ${wanted[$name]+set} ]]; then
        of[0]=$(proofs "$name")
        of[1]=$(tests "$name")
        of[2]=$(edits "$name")
        row "\`$name\`" "${of[@]}"
        for i in 0 1 2; do all[i]=$((all[i] + of[i])); done
    elif [[ ${needed[$name]+set} ]]; then
        cost "crates/$name" lib >/dev/null
    fi
done
row all "${all[@]}"
