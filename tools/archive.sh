#!/bin/sh
# tools/archive.sh: writes crates/exports/out/libexports.a over the libraries that an `rt ci` has just left in crates/*/out, and proves the crate
# exports alone. `rt lib` takes only what `rt check` kept: behind an rt ci it would prove every crate below a second time. It does not see whether the
# sources changed since that rt ci, so it is for .ci/run; a person says `make archive`.
set -eu
cd "$(dirname "$0")/../crates/exports"
kit=$(dirname "$(dirname "$(readlink -f "$(command -v rt)")")")
needs=$(sed -n 's/^exports staticlib: *//p' ../../crates.txt)
[ -n "$needs" ] || { echo "tools/archive.sh: crates.txt has no line 'exports staticlib: ..'" >&2; exit 2; }
set -- --extern "std=$kit/rlibs/std.rlib" -L "dependency=$kit/rlibs"
for name in $needs; do set -- "$@" --extern "$name=../$name/out/rlib/$name.rlib"; done
for folder in ../*/out/rlib; do set -- "$@" -L "dependency=$folder"; done
mkdir -p out
"$kit/bin/rattle" build --crate-name exports --crate-type staticlib src/lib.rt "$@" --antt-project "$kit/rattle/logic/antt-project.json" \
  --logic-built "$kit/logic_built" --toolchain "$kit/toolchain" --backend llvm --links exports= -o out/libexports.a
