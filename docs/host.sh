#!/usr/bin/env bash
# Runs the built program where a host refuses what it is asked for, which no proof sees: each line has the status that
# must come, and the text on standard error. It builds the program first, which is short where the gate has passed.
set -u
cd "$(dirname "$0")/../crates/mmgc" || exit 1
rt run < /dev/null > /dev/null || exit 1
work=$(mktemp -d)
trap 'rm -rf "$work"' EXIT
printf 'new t 0 4\n' > "$work/trace"
for _ in {1..40000}; do printf 'push 1\n'; done > "$work/long"
failed=0

# status, text, what is run
ends() {
    local status=$1 text=$2 said got
    shift 2
    said=$(bash -c "$1" mmgc "$work" 2>&1 > /dev/null)
    got=$?
    if [ "$got" != "$status" ] || [ "$said" != "$text" ]; then
        printf 'status %s and "%s" in place of %s and "%s": %s\n' "$got" "$said" "$status" "$text" "$1" >&2
        failed=1
    fi
}

ends 0 ''                            'out/mmgc "$1/trace"'
ends 3 'mmgc: read failed'           'out/mmgc "$1"'
ends 3 'mmgc: read failed'           'out/mmgc "$1/absent"'
ends 3 'mmgc: read failed'           'out/mmgc <&-'
ends 4 'mmgc: write failed'          'out/mmgc "$1/trace" > /dev/full'
ends 4 'mmgc: write failed'          'out/mmgc "$1/trace" >&-'
ends 4 'mmgc: write failed'          'set -o pipefail; out/mmgc --stack 65536 "$1/long" | true'
ends 7 ''                            'out/mmgc $'"'"'\xff\xfe'"'"' < "$1/trace"'
ends 1 ''                            'printf "new\n" | out/mmgc 2>&-'
exit "$failed"
