#!/bin/sh
# Holds .ci/run and the Makefile to what they promise, in a scratch repository where rt, rattle and cargo are stand-ins: the run's last line is rt ci's
# own, a step that fails is a run that fails, and what is missing gets one sentence. Takes a second.
set -eu
here=$(cd "$(dirname "$0")/.." && pwd)
scratch=$(mktemp -d)
trap 'rm -rf "$scratch"' EXIT
mkdir -p "$scratch/bin" "$scratch/repository/crates/a" "$scratch/repository/crates/exports/src" "$scratch/repository/tools" "$scratch/shared/docs/src/lalrpop/src"
cd "$scratch/repository"
cp -r "$here/.ci" "$here/Makefile" .
cp "$here/tools/archive.sh" tools
printf 'a:\nexports staticlib: a\n' > crates.txt
for script in check_trust check_gate check_missing; do echo 'echo checked' > "tools/$script.sh"; done

# no other command is on the PATH, so that rt can be taken away
for tool in bash sh make dirname basename readlink find grep sed mktemp tee tail rm mkdir cat env; do ln -s "$(command -v $tool)" "$scratch/bin/$tool"; done
cat > "$scratch/bin/rt" <<'END_RT'
#!/bin/sh
case $*:${PWD##*/} in
ci:repository) mkdir -p crates/a/out/rlib; echo "rt: proving"; [ -z "$CI_OK" ] || echo "rt: ok; handles allowed: none$CI_OK"; echo "$CI_LAST"; exit "$CI_STATUS" ;;
lib:exports) echo "rt: lib" > ../../said; exit "$ARCHIVE_STATUS" ;;
*) echo "rt $* in $PWD"; exit 9 ;;
esac
END_RT
cat > "$scratch/bin/rattle" <<'END_RATTLE'
#!/bin/sh
case $* in
*' --extern a=../a/out/rlib/a.rlib -L dependency=../a/out/rlib '*' -o out/libexports.a') echo "rattle: build" | tee ../../said; exit "$ARCHIVE_STATUS" ;;
*) echo "rattle $*"; exit 9 ;;
esac
END_RATTLE
cat > "$scratch/bin/cargo" <<'END_CARGO'
#!/bin/sh
echo "test result: ok. 5 passed; 0 failed; required: ${REQUIRE_LALRPOP:-no}"
exit "$CARGO_STATUS"
END_CARGO
chmod +x "$scratch/bin/rt" "$scratch/bin/rattle" "$scratch/bin/cargo"

runs=0
fail() { echo "tools/check_gate.sh: $1, not as .ci/run promises:"; cat "$scratch/out"; exit 1; }

# try NAME ok|not LAST CI_OK CI_LAST CI_STATUS ARCHIVE_STATUS CARGO_STATUS: one run, its status and the start of its last line
try() {
  status=0 runs=$((runs + 1))
  env -i PATH="$scratch/bin" CI_OK="$4" CI_LAST="$5" CI_STATUS="$6" ARCHIVE_STATUS="$7" CARGO_STATUS="$8" .ci/run > "$scratch/out" 2>&1 || status=$?
  case $2 in ok) [ "$status" -eq 0 ] ;; *) [ "$status" -ne 0 ] ;; esac || fail "$1: status $status"
  case $(tail -n 1 "$scratch/out") in "$3"*) ;; *) fail "$1: another last line than '$3'" ;; esac
  case $1 in *"as it was") ;; *) rm -rf crates/a/out ;; esac
}

good='7 passed, 0 failed' edits='; must-fail edits: 10 refused; done'
try "all good" ok "$good" "$edits" "$good" 0 0 0
grep -q 'required: 1' "$scratch/out" || fail "REQUIRE_LALRPOP beside the shared files"
grep -q 'rattle: build' said || fail "the archive over what rt ci left"
try "all good, out as it was" ok "$good" "$edits" "$good" 0 0 0
try "libraries before rt ci" ok "$good" "$edits" "$good" 0 0 0
grep -q 'rt: lib' said || fail "the archive by rt lib"
try "rt ci fails" not '6 passed, 1 failed' '' '6 passed, 1 failed' 1 0 0
! grep -q 'test result' "$scratch/out" || fail "the Rust tests behind a failed rt ci"
try "rt ci fails by its count alone" not "rt ci's last line" "$edits" '6 passed, 1 failed' 0 0 0
try "rt ci without its count" not "rt ci's last line" "$edits" 'rt: ended' 0 0 0
try "rt ci without its ok" not "rt ci says no" '' "$good" 0 0 0
try "rt ci of some crates" not "rt ci's last line" "$edits" "$good (a and the crates below alone: not the gate)" 0 0 0
try "a bad edit" not 'must-fail edits are bad' '; must-fail edits: 10 refused, 1 bad; done' "$good" 0 0 0
try "ten bad edits" not 'must-fail edits are bad' '; must-fail edits: 10 refused, 1 of them only by a limit, 10 bad; done' "$good" 0 0 0
try "no archive" not 'rattle: build' "$edits" "$good" 0 1 0
try "no archive, out as it was" not 'rattle: build' "$edits" "$good" 0 1 0
try "no archive by rt lib" not 'make: ***' "$edits" "$good" 0 1 0
try "a Rust test fails" not 'make: ***' "$edits" "$good" 0 0 101
rm -r ../shared
try "without the shared files" ok "$good" "$edits" "$good" 0 0 0
grep -q 'required: no' "$scratch/out" || fail "REQUIRE_LALRPOP without the shared files"
mkdir crates/b
try "a crate that is not listed" not 'crates/b is not listed in crates.txt' "$edits" "$good" 0 0 0
rm "$scratch/bin/rt"
try "no rt" not 'Makefile:' "$edits" "$good" 0 0 0
grep -q 'rt is not on the PATH: it is the command of the Rattle kit' "$scratch/out" || fail "the sentence about rt"
echo "tools/check_gate.sh: $runs runs of the gate with stand-ins end as they should"
