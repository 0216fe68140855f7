#!/usr/bin/env bash
# The stored stories and their certificates are those that the generator of the benches and that of the game write, byte for byte.
set -u
here=$(cd "$(dirname "$0")" && pwd)
top="$here/../.."
work=$(mktemp -d)
trap 'rm -rf "$work"' EXIT
passed=0
failed=0

# are_written STORY CERTIFICATE GENERATOR WORD..: the files are those that the generator writes.
are_written() {
    local story=$1 certificate=$2
    shift 2
    python3 "$@" "$work/story" "$work/certificate"
    if cmp "$work/story" "$top/$story" && cmp "$work/certificate" "$top/$certificate"; then
        passed=$((passed + 1))
    else
        failed=$((failed + 1))
    fi
}

are_written crates/zpc/data/hello.z3 crates/zpc/data/hello.cert "$top/benches/straight.py" print 1
are_written crates/zcalls/data/story.z3 crates/zcalls/data/story.cert "$top/benches/straight.py" print 6
are_written crates/zpc/data/guess.z3 crates/zpc/data/guess.cert "$here/guess.py"
echo "samples: $passed passed, $failed failed"
[ "$failed" -eq 0 ]
