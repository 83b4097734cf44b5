#!/bin/sh
# fuzz.sh SECONDS SEED PART: tapes put to the exported calls, compared with the second reading and the Rust, in memory between pages without access.
# PART is guided (libFuzzer makes them, guided by the branches of the Rust side; the own generator where clang's runtime doesn't have it), random (the own
# generator), valgrind (the same under memcheck, in blocks of the heap), every (each one-byte change and each cut of ten rich tapes), or stack (what each
# call takes of it). Only the first three go by the time. A difference or a fault is told, and the status isn't 0.
set -eu
cd "$(dirname "$0")/.."
seconds=$1 seed=$2 part=$3
folder=target/fuzz
mkdir -p "$folder"

# build FOLDER OPTION..: the program in target/rust/FOLDER
build() {
  program=target/rust/$1/fuzz
  shift
  cargo build --release --quiet --offline --manifest-path rust/Cargo.toml --target-dir target/rust -p fuzz "$@"
}

libfuzzer=$(clang -print-file-name=libclang_rt.fuzzer_no_main-x86_64.a 2> /dev/null || true)
if [ "$part" = guided ] && [ ! -f "$libfuzzer" ]; then
  echo "fuzz: clang's runtime has no libFuzzer (Debian: clang and libclang-rt-14-dev): the own generator makes the tapes"
  part=random
fi

# each crate of ours and LALRPOP's files count their branches and tell what they compare; a target that is named spares the build scripts that
guided() {
  host=x86_64-unknown-linux-gnu
  LIBFUZZER=$libfuzzer RUSTFLAGS="${RUSTFLAGS:-} -C codegen-units=1 -C passes=sancov-module -C llvm-args=-sanitizer-coverage-level=4 \
-C llvm-args=-sanitizer-coverage-inline-8bit-counters -C llvm-args=-sanitizer-coverage-pc-table -C llvm-args=-sanitizer-coverage-trace-compares" \
    build "$host/release" --target "$host"
  log=$folder/libfuzzer.log
  "$program" guided "$seconds" "$seed" "$folder" 2> "$log" || { tail -n 60 "$log"; exit 1; }
  echo "libFuzzer: $(grep -a ' cov: ' "$log" | tail -n 1)"
}

# what memcheck says of the read that is planted first, and must be seen, is left out
memcheck() {
  build release
  check="valgrind --quiet --error-exitcode=9 $program"
  status=0
  $check planted output end read heap > "$folder/planted.log" 2>&1 || status=$?
  [ "$status" -eq 9 ] || { cat "$folder/planted.log"; echo "fuzz: memcheck doesn't see a planted read behind a buffer"; exit 1; }
  $check random "$seconds" "$seed" heap
}

case $part in
  guided) guided ;;
  random) build release; "$program" random "$seconds" "$seed" ;;
  valgrind) memcheck ;;
  every) build release; "$program" every ;;
  stack) build release; "$program" stack "$seed" 300 ;;
  *) echo "fuzz.sh: PART is guided, random, valgrind, every or stack"; exit 2 ;;
esac
