#!/bin/sh
# tools/more_edits.sh [CRATE...]: tries the must-fail edits under tools/edits, which the gate leaves out because each checks a crate of a minute or more.
# In a clone of the repository, in which they stand in place of the gate's own; the last line is rt's.
set -eu
cd "$(dirname "$0")/.."
copy=$(mktemp -d)
trap 'rm -rf "$copy"' EXIT
git clone -q . "$copy/repository"
cd "$copy/repository"
rm -f crates/*/must-fail/*.edit
for folder in tools/edits/*/; do
  mkdir -p "crates/$(basename "$folder")/must-fail"
  cp "$folder"*.edit "crates/$(basename "$folder")/must-fail"
done
rt must-fail "$@"
