#!/usr/bin/env bash
# Counts the host's instructions of whole commands on the sample games, by valgrind; nothing is taken off.
# Usage: small.sh [PROGRAM], where PROGRAM is crates/zpc/out/zpc if not given.
set -u
here=$(cd "$(dirname "$0")" && pwd)
program=${1:-$here/../crates/zpc/out/zpc}
data=$here/../crates/zpc/data
if [ ! -x "$program" ]; then
    echo "there is no program $program: (cd crates/zpc && rt run) builds it" >&2
    exit 2
fi
work=$(mktemp -d)
trap 'rm -rf "$work"' EXIT

# host WORD..: the host's instructions of a whole run
host() {
    if ! valgrind --tool=callgrind --callgrind-out-file="$work/calls" "$program" "$@" >"$work/out" 2>"$work/log"; then
        echo "the run of $* failed: $(grep -v '^==' "$work/log")" >&2
        exit 1
    fi
    sed -n 's/^.*Collected : \([0-9]*\).*$/\1/p' "$work/log"
}

printf '%-8s %12s %12s %12s\n' game list check find
for game in hello bell; do
    list=$(host list "$data/$game.z3") || exit 1
    check=$(host check "$data/$game.z3" "$data/$game.cert") || exit 1
    find=$(host find "$data/$game.z3" "$work/found") || exit 1
    printf '%-8s %12d %12d %12d\n' "$game" "$list" "$check" "$find"
done
