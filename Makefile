# run, test: README's two commands; run TAPE=file lists that tape. archive: what Rust and C link. valgrind: the tests of rust/normalize and rust/gib under valgrind. compare: all calls set against the Rust on some hundred thousand
# tapes. bench: the calls' time, beside LALRPOP's. fuzz: tapes put to all calls for SECONDS in guarded memory (PART=.. as tools/fuzz.sh has them).
# trust: counts what a reader must believe, and holds docs/TRUST.md to the files.
# They need the Rattle kit's rt, cargo and make.
.PHONY: run test archive rust-tests valgrind compare bench fuzz trust clean need-rt

cargo = cargo $(1) --quiet --offline --manifest-path rust/Cargo.toml --target-dir target/rust

# rattle's lines, which rt run writes as errors, are shown where it fails
run: need-rt
	@echo "run: proves the calls (18 minutes the first time on four cores, seconds afterwards), then lists $(or $(TAPE),docs/examples/query.tape)" >&2
	@mkdir -p target
	@cd crates/list && rt run < "$(abspath $(or $(TAPE),docs/examples/query.tape))" 2> ../../target/run.log || { cat ../../target/run.log; exit 1; }

test: need-rt
	@.ci/run

# proves what `rt check` has not kept
archive: need-rt
	@mkdir -p target
	@cd crates/exports && rt lib > ../../target/archive.log 2>&1 || { cat ../../target/archive.log; exit 1; }

# the tests that link the archive
rust-tests:
	$(call cargo,test)
	sh tools/check_missing.sh

valgrind: archive
	sh tools/valgrind.sh

compare: archive
	for part in resolve levels macros; do $(call cargo,run) --release -p compare --bin compare -- $(or $(SEED),1) $(or $(COUNT),200000) $$part || exit 1; done
	$(call cargo,run) --release -p compare --bin compare -- $(or $(SEED),1) $(or $(COUNT),500000) whole

bench: archive
	$(call cargo,run) --release -p bench

fuzz: archive
	@sh tools/fuzz.sh $(or $(SECONDS),60) $(or $(SEED),1) $(or $(PART),guided)

# no part of `test`, which needs no Python; the gate holds the line numbers by itself
trust:
	@python3 tools/plain_tier.py --check
	@python3 tools/trust.py

clean:
	rm -rf target crates/*/out

need-rt:
	$(if $(shell command -v rt 2> /dev/null),,$(error rt is not on the PATH: it is the command of the Rattle kit; install the kit and put its folder bin on the PATH))
	@:
