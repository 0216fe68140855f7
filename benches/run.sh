#!/usr/bin/env bash
# Counts the host's instructions of the built program for each instruction of a story, by valgrind, and the start-up's.
# Usage: run.sh [--certificate] [PROGRAM], where PROGRAM is crates/zpc/out/zpc if not given. With --certificate the story is
# played with its certificate, as `play STORY CERTIFICATE`.
set -u
here=$(cd "$(dirname "$0")" && pwd)
with_certificate=no
if [ "${1:-}" = --certificate ]; then
    with_certificate=yes
    shift
fi
program=${1:-$here/../crates/zpc/out/zpc}
if [ ! -x "$program" ]; then
    echo "there is no program $program: (cd crates/zpc && rt run) builds it" >&2
    exit 2
fi
work=$(mktemp -d)
trap 'rm -rf "$work"' EXIT

# host KIND COUNT PRINTED: the host's instructions of a whole run, whose output has so many bytes
host() {
    python3 "$here/straight.py" "$1" "$2" "$work/story" "$work/certificate" || exit 1
    local words=(play "$work/story")
    [ "$with_certificate" = yes ] && words+=("$work/certificate")
    if ! valgrind --tool=callgrind --callgrind-out-file="$work/calls" "$program" "${words[@]}" >"$work/out" 2>"$work/log"; then
        echo "the run of $2 $1 failed: $(grep -v '^==' "$work/log")" >&2
        exit 1
    fi
    if [ "$(stat -c %s "$work/out")" != "$3" ]; then
        echo "the run of $2 $1 printed $(stat -c %s "$work/out") bytes and not $3" >&2
        exit 1
    fi
    sed -n 's/^.*Collected : \([0-9]*\).*$/\1/p' "$work/log"
}

# measure KIND FEW MANY PRINTED: a line of two lengths, where one instruction prints so many bytes
measure() {
    local few many
    few=$(host "$1" "$2" $(($2 * $4))) || exit 1
    many=$(host "$1" "$3" $(($3 * $4))) || exit 1
    awk -v kind="$1" -v few="$2" -v many="$3" -v a="$few" -v b="$many" 'BEGIN {
        each = (b - a) / (many - few)
        printf "%-10s %9d %12d %9d %12d %10.1f %12.0f\n", kind, few, a, many, b, each, a - each * few
    }'
}

printf '%-10s %9s %12s %9s %12s %10s %12s\n' kind few host many host 'host/each' start-up
measure nop 10000 110000 0
measure new_line 10000 110000 1
measure print 2000 22000 5
measure sentence 400 1400 114
