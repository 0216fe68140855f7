#!/usr/bin/env bash
# Tries the edits by the kit's own `rt must-fail`, in a copy of the repository, a whole check of its crate for each of them.
# Usage: slow.sh [CRATE ..]
set -eu
top=$(cd "$(dirname "$0")/../.." && pwd)
work=$(mktemp -d)
trap 'rm -rf "$work"' EXIT
git -C "$top" ls-files -z | (cd "$top" && xargs -0 cp --parents -t "$work")
for edits in "$work"/crates/*/edits; do
    mv "$edits" "$(dirname "$edits")/must-fail"
done
cd "$work"
git init --quiet .
rt must-fail "$@"
