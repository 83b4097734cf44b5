#!/usr/bin/env bash
# tools/cases.sh: writes crates/cases/stdin and stdout: the cases of questions 1 to 4, whose answers are stated in tools/validating, then the
# stored cases of resolving, of levels, of macros and of the whole, answered by the second reading of document 01 and by LALRPOP's Rust
# (rust/compare/src/chosen.rs, chosen_rounds.rs, and stated.rs, whose answers are stated there as well). Our own calls are not asked.
set -euo pipefail
cd "$(dirname "$0")/.."
stored() { cargo run --quiet --offline --manifest-path rust/Cargo.toml --target-dir target/rust --release -p compare --bin stored -- "$@"; }
for file in stdin:input stdout:expected; do
  {
    python3 tools/cases.py "${file#*:}"
    for call in resolve levels macros whole; do stored "${file#*:}" "$call"; done
  } > "crates/cases/${file%:*}.new"
done
for file in stdin stdout; do mv "crates/cases/$file.new" "crates/cases/$file"; done
wc -lc crates/cases/stdin crates/cases/stdout
