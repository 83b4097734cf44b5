#!/bin/sh
# tools/valgrind.sh: the tests of rust/normalize and rust/gib under valgrind, the program gib that they start too. Each buffer of these tests is
# as long as it is said to be, so a byte read or written beside it is an error, and so is memory that is lost. Where there is no valgrind that is said.
set -eu
cd "$(dirname "$0")/.."
command -v valgrind > /dev/null || { echo "tools/valgrind.sh: skipped: valgrind is not on the PATH" >&2; exit 0; }

# the harness of tests keeps its main thread's name till the end: possibly lost, and no error; a shell between pipes is none of ours
kinds="--leak-check=full --show-leak-kinds=definite --errors-for-leak-kinds=definite"
runner="valgrind --quiet --error-exitcode=9 $kinds --trace-children=yes --trace-children-skip=*/sh"
CARGO_TARGET_X86_64_UNKNOWN_LINUX_GNU_RUNNER=$runner
export CARGO_TARGET_X86_64_UNKNOWN_LINUX_GNU_RUNNER
cargo test --quiet --offline --manifest-path rust/Cargo.toml --target-dir "${CARGO_TARGET_DIR:-target/rust}" -p normalize -p gib --lib --bins --tests
echo "tools/valgrind.sh: no error"
