#!/usr/bin/env bash
# Says where a counter of steps is opened outside the files that may do so, and fails then. A body that opened one of
# its own could count there, and no clause on the steps of its caller would see it. Tests may open counters.
set -u
cd "$(dirname "$0")/.." || exit 1
opened=$(grep -rlE 'Steps::open|Blank::new' --include='*.rt' crates |
    grep -vE -e '/src/tests(\.rt|/)' -e '^crates/mm_trials/' -e '^crates/mm_gc/src/closing\.rt$' \
        -e '^crates/mm_c/src/(in_bulk|phases|reading|serving|stack)\.rt$' \
        -e '^crates/mmgc/src/(answer|execute|executor|generating|work)\.rt$')
if [ -n "$opened" ]; then
    printf 'A counter of steps is opened in:\n%s\n' "$opened" >&2
    exit 1
fi
