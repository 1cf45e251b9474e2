#!/usr/bin/env bash
# Counts with valgrind how many instructions the built program takes for a line of some traces.
# Usage, at the top of the checkout: docs/measure.sh [PROGRAM]
set -eu
program=$(realpath "${1:-crates/mmgc/out/mmgc}")
folder=$(mktemp -d)
trap 'rm -rf "$folder"' EXIT
cd "$folder"

# The instructions of a run with these arguments.
count() {
    valgrind --tool=callgrind --callgrind-out-file=/dev/null "$program" "$@" 2>&1 >log | sed -n 's/.*Collected : //p'
}

# So many times these lines.
times() {
    for ((i = 0; i < $1; i++)); do printf '%s' "$2"; done
}

# A list of so many objects of two slots. Its head stands in the slot of an object that the stack names.
list() {
    printf 'new t 0 1\n'
    times "$1" $'new t 0 2\nget 1 0\nput 1 0 0\nput 2 0 1\npop 2\n'
}

# The instructions a unit of lines that stand behind a file of other lines: NAME FILE LINES REPEATS UNITS ARGUMENTS..
row() {
    local name=$1 before=$2 lines=$3 repeats=$4 units=$5
    shift 5
    { cat "$before" && times "$repeats" "$lines"; } >whole
    printf '%-44s%9d\n' "$name" $((($(count "$@" whole) - $(count "$@" "$before")) / (repeats * units)))
}

: >empty
printf 'new t 0 4\n' >object
printf 'new t 0 4\npush 7\n' >beside
printf 'new r 2 2\nnew r 0 2\nnew r 0 2\n' >counted
printf 'root 0 4\npush 7\n' >area

printf '%-44s%9d\n' 'an empty trace, the whole run' "$(count empty)"
row 'push 123456789, pop 1' empty $'push 123456789\npop 1\n' 20000 2
row 'get 0 3, pop 1' object $'get 0 3\npop 1\n' 20000 2
row 'put 1 3 0, not counted' beside $'put 1 3 0\n' 20000 1
row 'put 2 1 1, put 2 1 0, counted' counted $'put 2 1 1\nput 2 1 0\n' 20000 2
row 'inner 0 20, pop 1' object $'inner 0 20\npop 1\n' 20000 2
row 'map 0' object $'map 0\n' 20000 1
row 'new t 0 4, pop 1, with collections' empty $'new t 0 4\npop 1\n' 20000 2
row 'new r 0 2, pop 1, with reaps' empty $'new r 0 2\npop 1\n' 20000 2
row 'weak 1, look 0, pop 2' beside $'weak 1\nlook 0\npop 2\n' 20000 3
row 'aput 0 3 0' area $'aput 0 3 0\n' 20000 1
row 'new t 0 1000, in pages that are there' empty $'new t 0 1000\n' 100 1 --pages 4096 --max 4096
row 'new t 0 1000, in a page more each' empty $'new t 0 1000\n' 100 1 --pages 2 --max 4096
for objects in 10000 100000 500000; do
    list $objects >listed
    row "collect, for each of $objects objects" listed $'collect\n' 2 $objects --pages 4096 --max 4096
    row "a cycle, for each of $objects objects" listed $'begin\nstep 1000000\nfinish\n' 2 $objects \
        --pages 4096 --max 4096
    row "push 7, pop 1, beside $objects objects" listed $'push 7\npop 1\n' 20000 2 --pages 4096 --max 4096
    row "new t 0 2, pop 1, beside $objects objects" listed $'new t 0 2\npop 1\n' 20000 2 --pages 4096 --max 4096
done
