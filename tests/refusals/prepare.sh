# Sourced by the scripts of this folder: takes a program and the folder that it runs in, builds the shim that refuses an
# allocation, and goes to that folder. Sets program and work, a folder that is gone at the end, and passed and failed to 0.
program=$(realpath "$1")
[ -x "$program" ] || exit 1
work=$(mktemp -d)
trap 'rm -rf "$work"' EXIT
cc -O1 -shared -fPIC -o "$work/refuse.so" "$(dirname "${BASH_SOURCE[0]}")/refuse.c" || exit 1
cd "$2" || exit 1
passed=0
failed=0
