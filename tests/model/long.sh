#!/bin/bash
# As many command lines as wanted, in rounds of 2,000 with a seed each.
#
#     long.sh COUNT SEED [PROGRAM]
set -u
here=$(cd "$(dirname "$0")" && pwd) || exit 1
count=$1 seed=$2 program=$(realpath "${3:-$here/../../crates/zpc/out/zpc}") failed=0 round=0
while [ "$count" -gt 0 ]; do
    most=$((count < 2000 ? count : 2000))
    python3 "$here/run.py" "$program" "$most" "$seed.$round" || failed=1
    count=$((count - most)) round=$((round + 1))
done
exit $failed
