#!/usr/bin/env bash
# Runs the built program with its Nth allocation refused, for N = 1, 2, .. until a run meets no refusal. Each answer has
# to be the one of ample memory, or `failed: memory` with status 4 and a beginning of the output.
# Usage: run.sh PROGRAM STORIES, a folder with the stories that the commands below name.
set -u
here=$(cd "$(dirname "$0")" && pwd)
. "$here/prepare.sh" "$@"
# A story whose routine calls itself three times, so that frames and stacks grow, and its certificate.
(cd "$here/../program" && python3 -c '
import sys
from calls import LEVELS, deep, files
for name, contents in files(deep(3), [LEVELS]).items():
    with open(f"{sys.argv[1]}/{name}", "wb") as file:
        file.write(contents)
' "$work") || exit 1
# A story that calls one of two routines, with a certificate of version 2.
(cd "$here/../program" && python3 -c '
import sys
from lists import NAMINGS
for name, contents in NAMINGS[0][1].items():
    with open(f"{sys.argv[1]}/{name}.lists", "wb") as file:
        file.write(contents)
' "$work") || exit 1
# A story that saves, one that restores, a save of that, one of more frames than there are words for, one of another interpreter, and their
# certificates.
(cd "$here/../program" && python3 -c '
import sys
import saves
import unpacking
for name, contents in (
    ("saves", saves.QUITS), ("saves.cert", saves.QUITS_LISTED),
    ("restores", saves.RESTORES), ("restores.cert", saves.RESTORES_LISTED), ("kept", saves.ITS_SAVE), ("deep", saves.DEEP_SAVE),
    ("packed", unpacking.packed(saves.DEEP_SAVE, saves.RESTORES)),
):
    with open(f"{sys.argv[1]}/{name}", "wb") as file:
        file.write(contents)
' "$work") || exit 1

# A story that meets five faults at three places, in the deeper of two routines.
(cd "$here/../program" && python3 -c '
import sys
from excused import DEEP
with open(f"{sys.argv[1]}/faults", "wb") as file:
    file.write(DEEP)
' "$work") || exit 1

# what a play prints besides, where memory to read a save was refused: that is a failure of the store, which the story is told
unrestored=
# what each line is of many stories, where memory for one was refused: that is told in its line, and in the exit status
each=

# the lines on the errors where faults were answered: what a fault is, is left out of one where memory for that was refused, and where it was
# refused for an answer, or to keep one, play ends
warned=

# whether places of the source are told: where memory for one is refused, its line stays as it is without it
sourced=

# answer NAME SETTINGS WORD..: the status, output and errors of a run, in files of that name. The settings are of the
# program's environment alone.
answer() {
    local name=$1
    local -n settings=$2
    shift 2
    timeout 20 env "${settings[@]}" "$program" "$@" >"$work/$name.out" 2>"$work/$name.err" </dev/null
    echo $? >"$work/$name.status"
}

# is_beginning FILE WHOLE
is_beginning() {
    cmp -s "$1" <(head -c "$(stat -c %s "$1")" "$2")
}

# is_warned STATUS: whether a lenient play told of its faults, to its end or as far as it came
is_warned() {
    local ends=0
    [ "$(tail -n 1 "$work/refused.err")" != "failed: memory" ] || ends=4
    ! grep -qvE "$warned" "$work/refused.err" && is_beginning "$work/refused.out" "$work/ample.out" && [ "$1" = "$ends" ]
}

# without_places FILE: its lines without the places of the source
without_places() {
    sed -E 's/ \([^ ]+:[0-9]+, [^ ]+\)$//' "$1"
}

# is_told STATUS: whether lines were written to their end, or as far as there was memory, each with its place or without
is_told() {
    without_places "$work/ample.out" >"$work/ample.plain"
    without_places "$work/refused.out" >"$work/refused.plain"
    case $1 in
        0) [ ! -s "$work/refused.err" ] && cmp -s "$work/ample.plain" "$work/refused.plain" ;;
        4) [ "$(cat "$work/refused.err")" = "failed: memory" ] && is_beginning "$work/refused.plain" "$work/ample.plain" ;;
        *) false ;;
    esac
}

# one command, over every N
refuse_each() {
    local ample=() refusing=()
    answer ample ample "$@"
    local n=0
    while :; do
        n=$((n + 1))
        rm -f "$work/refused"
        refusing=("LD_PRELOAD=$work/refuse.so" "REFUSE=$n" "REFUSED=$work/refused")
        answer refused refusing "$@"
        if cmp -s "$work/ample.status" "$work/refused.status" && cmp -s "$work/ample.out" "$work/refused.out" && cmp -s "$work/ample.err" "$work/refused.err"; then
            passed=$((passed + 1))
        elif [ "$(cat "$work/refused.status")" = 4 ] && [ "$(cat "$work/refused.err")" = "failed: memory" ] && is_beginning "$work/refused.out" "$work/ample.out"; then
            passed=$((passed + 1))
        elif [ -n "$each" ] && [ "$(cat "$work/refused.status")" = 4 ] && [ ! -s "$work/refused.err" ] && ! grep -qvE "$each" "$work/refused.out"; then
            passed=$((passed + 1))
        elif [ -n "$warned" ] && is_warned "$(cat "$work/refused.status")"; then
            passed=$((passed + 1))
        elif [ -n "$sourced" ] && is_told "$(cat "$work/refused.status")"; then
            passed=$((passed + 1))
        elif [ -n "$unrestored" ] && [ "$(cat "$work/refused.status")" = 0 ] && [ "$(cat "$work/refused.out")" = "$unrestored" ] && [ ! -s "$work/refused.err" ]; then
            passed=$((passed + 1))
        else
            failed=$((failed + 1))
            echo "refusals: zpc $* with allocation $n refused: status $(cat "$work/refused.status"), $(head -c 200 "$work/refused.err")"
        fi
        [ -e "$work/refused" ] || break
        if [ "$n" -ge 5000 ]; then
            failed=$((failed + 1))
            echo "refusals: zpc $*: no end"
            break
        fi
    done
    # a program that takes no memory was not run
    if [ "$n" -lt 2 ]; then
        failed=$((failed + 1))
    fi
    echo "refusals: zpc $*: $n runs"
}

refuse_each play hello.z3
refuse_each play --budget 0 hello.z3
refuse_each play absent.z3
refuse_each list hello.z3
refuse_each list --json hello.z3
refuse_each list --json hello.z3 hello.cert
refuse_each list absent.z3
refuse_each list hello.z3 hello.cert
refuse_each list hello.z3 absent.cert
refuse_each list "$work/story" "$work/certificate"
refuse_each list hello.cert
refuse_each find hello.z3 "$work/found.cert"
refuse_each find hello.cert "$work/found.cert"
refuse_each find absent.z3 "$work/found.cert"
refuse_each find "$work/story" "$work/found.cert"
refuse_each explain I5
refuse_each explain
refuse_each explain --json
refuse_each explain --json I5
refuse_each info hello.z3
refuse_each info --json hello.z3
refuse_each explain I19
refuse_each check hello.z3 hello.cert
refuse_each check hello.z3 "$work/story"
refuse_each check hello.z3 absent.cert
refuse_each show hello.z3 hello.cert
refuse_each show hello.z3 hello.cert 00324
refuse_each show hello.z3 hello.cert 00325
refuse_each show hello.z3 hello.cert x
refuse_each show hello.z3 hello.z3
refuse_each show hello.z3 absent.cert
refuse_each play hello.z3 hello.cert
refuse_each play --budget 0 hello.z3 hello.cert
refuse_each play "$work/story"
refuse_each play "$work/story" "$work/certificate"
refuse_each check "$work/story" "$work/certificate"
refuse_each list "$work/story"
refuse_each list "$work/story.lists" "$work/certificate.lists"
refuse_each check "$work/story.lists" "$work/certificate.lists"
refuse_each show "$work/story.lists" "$work/certificate.lists"
refuse_each play "$work/story.lists" "$work/certificate.lists"
printf 'look\ntake hook\n' >"$work/lines"
refuse_each play --width 40 hello.z3
refuse_each play --width 30 --transcript /dev/null --record /dev/null --replay "$work/lines" bell.z3
refuse_each play --replay "$work/absent" hello.z3
refuse_each unpack "$work/restores" "$work/packed" "$work/plain"
refuse_each unpack "$work/restores" "$work/kept" "$work/plain"
refuse_each play --save "$work/new" "$work/saves"
refuse_each play --save "$work/new" "$work/saves" "$work/saves.cert"
unrestored=0
refuse_each play --save "$work/kept" "$work/restores"
refuse_each play --save "$work/deep" "$work/restores"
refuse_each play --save "$work/kept" "$work/restores" "$work/restores.cert"
unrestored=
warned='^(warning: F(2|6|10) at 00[0-9a-f]{3}(: [a-z].*)?|faults answered: [1-5]|failed: memory)$'
refuse_each play --lenient "$work/faults"
refuse_each play --lenient --save "$work/new" "$work/faults"
warned=
refuse_each play --lenient hello.z3 hello.cert
sourced=1
refuse_each list --debug "$here/../debug/tide.dbg" "$here/../debug/tide.z3"
sourced=
refuse_each list --debug "$work/absent" hello.z3
refuse_each list --debug hello.z3 hello.z3
each='^(.*hello\.z3: (accepted|found|failed: memory)|[12] files?: [01] (accepted|found), [12] failed)$'
cp hello.z3 "$work/hello.z3"
refuse_each check hello.z3
refuse_each check hello.z3 hello.z3
refuse_each find "$work/hello.z3"
each=
refuse_each play
refuse_each check
refuse_each --help
refuse_each --version
echo "refusals: $passed passed, $failed failed"
[ "$failed" -eq 0 ]
