#!/bin/sh
# What the Rust side says where the archive or LALRPOP's files are missing: one sentence each, and an error where they are required.
# Builds nothing but build scripts, in a temporary folder.
set -eu
cd "$(dirname "$0")/.."
scratch=$(mktemp -d)
trap 'rm -rf "$scratch"' EXIT

fail() { echo "tools/check_missing.sh: $1:"; cat "$scratch/out"; exit 1; }

# try NAME STATUS SENTENCE COMMAND..: ends so, and says the sentence in one line
try() {
  name=$1 wanted=$2 sentence=$3 status=0
  shift 3
  env "$@" > "$scratch/out" 2>&1 || status=$?
  [ "$status" -eq "$wanted" ] || fail "$name: status $status, not $wanted"
  [ "$(grep -cF "$sentence" "$scratch/out")" -eq 1 ] || fail "$name: the sentence '$sentence' is not there once"
}

check="cargo check --offline --manifest-path rust/Cargo.toml --target-dir $scratch/target"
nowhere="LALRPOP_SRC=$scratch/nowhere"
try "no archive" 101 "libexports.a is not in $scratch/nowhere: run \`make archive\`" RATTLE_STATICLIB="$scratch/nowhere" $check -p normalize
try "no LALRPOP" 0 "LALRPOP_SRC names their folder): what needs them is skipped" REQUIRE_LALRPOP= "$nowhere" $check -p oracle
try "LALRPOP required" 101 "LALRPOP_SRC names their folder): REQUIRE_LALRPOP=1 asks for them" REQUIRE_LALRPOP=1 "$nowhere" $check -p oracle
try "no parser" 101 "LALRPOP_CRATES names $scratch/nowhere, which has no lalrpop-util-0.19.8/src/lib.rs" LALRPOP_CRATES="$scratch/nowhere" $check -p parser
try "no LALRPOP, calls" 0 "LALRPOP_SRC names their folder): nothing compared" REQUIRE_LALRPOP= "$nowhere" tools/compare_calls.sh 1 1
try "LALRPOP required, calls" 2 "LALRPOP_SRC names their folder): REQUIRE_LALRPOP=1 asks for them" REQUIRE_LALRPOP=1 "$nowhere" tools/compare_calls.sh 1 1
echo "tools/check_missing.sh: 6 things that are missing are each said in one sentence"
