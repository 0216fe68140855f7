#!/usr/bin/env bash
# Runs the program that makes the public calls one by one, with its Nth allocation refused, for N = 1, 2, .. until a run
# meets no refusal. But for the lines that begin with `refused`, a run has to print what the undisturbed one does: a refused
# call changed nothing, and both writings together are the undisturbed one. Where such a line says where the machine stands,
# with its memory and what it gave out, the undisturbed run stood there too. A call that is refused makes a flush of its own,
# so that the flush that is to fail comes sooner, or comes where there is none else: lines that tell of it may stand elsewhere,
# and there may be one more.
# What the undisturbed run prints has lines that were worked out by hand, those among them.
# Usage: calls.sh PROGRAM FOLDER, which has the story and the certificate.
set -u
here=$(cd "$(dirname "$0")" && pwd)
. "$here/prepare.sh" "$@"
python3 "$here/stories.py" "$work/stories" || exit 1
: >"$work/kinds"

fails() {
    failed=$((failed + 1))
    echo "calls: $*"
}

# Whether the lines of a file are among those of another, in their order.
are_in_order() {
    python3 -c '
import sys
wanted, told = (open(name).read().splitlines() for name in sys.argv[1:])
left = iter(told)
sys.exit(not all(line in left for line in wanted))
' "$1" "$2"
}

# Whether each place that a refused call names is one of the undisturbed run, and each of its other lines is one of that.
are_places_known() {
    grep '^refused: .* at ' "$1" | sed 's/^refused: [a-z]* //' | while IFS= read -r place; do
        grep -qxF -- "$place" "$work/places" || exit 1
    done
}

# How many writes of a run failed.
failures() {
    grep -c '^writing failed$' "$1"
}

# Whether as many failed as in the undisturbed run, or one more.
are_failures_known() {
    local extra=$(($(failures "$1") - $(failures "$work/ample")))
    [ "$extra" -eq 0 ] || [ "$extra" -eq 1 ]
}

# The story of the current folder, for each N.
refuse_each() {
    timeout 20 "$program" >"$work/ample" </dev/null || exit 1
    if [ ! -e lines ] || are_in_order lines "$work/ample"; then
        passed=$((passed + 1))
    else
        fails "$1: the undisturbed run printed $(cat "$work/ample")"
    fi
    grep -v '^writing failed$' "$work/ample" >"$work/kept"
    # Where the undisturbed run stood, without the word for what was done there.
    grep ' at ' "$work/ample" | sed 's/^[a-z]* //' >"$work/places"
    # Where it stood in between, worked out by hand.
    [ ! -e places ] || cat places >>"$work/places"
    local n=0
    while [ "$n" -lt 5000 ]; do
        n=$((n + 1))
        rm -f "$work/refused"
        timeout 20 env "LD_PRELOAD=$work/refuse.so" "REFUSE=$n" "REFUSED=$work/refused" "$program" >"$work/out" </dev/null
        local status=$?
        if [ "$status" -eq 0 ] && grep -v -e '^refused' -e '^writing failed$' "$work/out" | cmp -s - "$work/kept" && are_failures_known "$work/out" && are_places_known "$work/out"; then
            passed=$((passed + 1))
        else
            fails "$1: with allocation $n refused: status $status, $(grep '^refused' "$work/out")"
        fi
        grep -oE '^refused: [a-z]+' "$work/out" >>"$work/kinds"
        [ -e "$work/refused" ] || break
    done
    echo "calls: $1: $n runs"
}

refuse_each repeated
for folder in "$work"/stories/*; do
    cd "$folder" || exit 1
    refuse_each "$(basename "$folder")"
done
# Each call that takes memory was refused in some run. A machine that restores what it saved itself takes none: run.sh restores a save for whose
# frames there are too few words.
wanted='check decode feed file find finish list load new parts play read render run save start step stream words write'
if [ "$(sort -u "$work/kinds" | tr '\n' ' ')" = "$(printf 'refused: %s\n' $wanted | tr '\n' ' ')" ]; then
    passed=$((passed + 1))
else
    fails "refused were $(sort -u "$work/kinds" | tr '\n' ' ')"
fi
echo "calls: $passed passed, $failed failed"
[ "$failed" -eq 0 ]
