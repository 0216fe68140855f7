#!/usr/bin/env bash
# Counts the host's instructions of `zpc check` for the stories of hostile.py with their certificates, by valgrind.
# Usage: hostile.sh [PROGRAM], where PROGRAM is crates/zpc/out/zpc if not given.
set -u
here=$(cd "$(dirname "$0")" && pwd)
program=${1:-$here/../crates/zpc/out/zpc}
if [ ! -x "$program" ]; then
    echo "there is no program $program: (cd crates/zpc && rt run) builds it" >&2
    exit 2
fi
work=$(mktemp -d)
trap 'rm -rf "$work"' EXIT

# check KIND: a line of the sizes and of the host's instructions of a check that accepts
check() {
    python3 "$here/hostile.py" "$1" "$work/story" "$work/certificate" || exit 1
    if ! valgrind --tool=callgrind --callgrind-out-file="$work/calls" "$program" check "$work/story" "$work/certificate" >"$work/out" 2>"$work/log"; then
        echo "the check of $1 failed: $(cat "$work/out")" >&2
        exit 1
    fi
    printf '%-14s %10d %12d %14s\n' "$1" "$(stat -c %s "$work/story")" "$(stat -c %s "$work/certificate")" \
        "$(sed -n 's/^.*Collected : \([0-9]*\).*$/\1/p' "$work/log")"
}

printf '%-14s %10s %12s %14s\n' kind story certificate host
for kind in nops prints pairs abbreviations both calls; do
    check "$kind"
done
