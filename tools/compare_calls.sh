#!/usr/bin/env bash
# tools/compare_calls.sh SEED COUNT: compares the four calls that write a tree (crates/passes/specs/Calls.antt) with LALRPOP's own Rust in COUNT random cases.
# rust/oracle compiles LALRPOP's files, unchanged, from the folder LALRPOP_SRC (default: ../shared/docs/src/lalrpop/src beside the repository),
# grows the tapes that SEED fixes, has LALRPOP's code make every stage of each call, and writes an antt module: each tape with a call, a limit
# and the lengths of output and work, what document 01 then says, and theorems by `refl` that the definitions give the same answer and the same
# bytes. The module is checked with rt in a temporary copy of the crates it needs; nothing is written into the repository but target/.
# Printed: how many cases agreed, how often each answer occurred, and each case that differs. The stored table crates/passes/proofs/Chosen.antt
# must be what rust/oracle writes, too.
# Exit status: 0 all agreed, or LALRPOP's files are missing; 1 a case or the table differs; 2 bad usage, the tools failed, or the files are missing and
# REQUIRE_LALRPOP is 1.
set -euo pipefail

[ $# -eq 2 ] || { echo "usage: tools/compare_calls.sh SEED COUNT" >&2; exit 2; }
seed=$1 count=$2
repository=$(cd "$(dirname "$0")/.." && pwd)
export LALRPOP_SRC=${LALRPOP_SRC:-$repository/../shared/docs/src/lalrpop/src}
if [ ! -f "$LALRPOP_SRC/normalize/macro_expand/mod.rs" ]; then
    missing="compare_calls: LALRPOP's files are not there (no normalize/macro_expand/mod.rs in $LALRPOP_SRC; LALRPOP_SRC names their folder)"
    [ "${REQUIRE_LALRPOP:-}" != 1 ] || { echo "$missing: REQUIRE_LALRPOP=1 asks for them" >&2; exit 2; }
    echo "$missing: nothing compared"
    exit 0
fi

LALRPOP_SRC=$(cd "$LALRPOP_SRC" && pwd)
copy=$(mktemp -d)
trap 'rm -rf "$copy"' EXIT
module=$copy/crates/passes/proofs/Compared.antt

# the crates that the module needs, without passes's other computed cases; rt begins with what checks of the same crates kept on this machine
copy_crates() {
    mkdir -p "$copy/crates"
    for crate in octets parse_tree passes; do
        grep "^$crate:" "$repository/crates.txt" >> "$copy/crates.txt"
        mkdir "$copy/crates/$crate"
        for part in src specs proofs; do
            [ ! -d "$repository/crates/$crate/$part" ] || cp -r "$repository/crates/$crate/$part" "$copy/crates/$crate/"
        done
    done
    find "$copy/crates/passes/proofs" -name '*.antt' ! -name Asked.antt -delete
    printf -- '-- Compared with the Rust.\nmod Asked\nmod Compared\n' > "$copy/crates/passes/proofs/Lib.antt"
}

# compare ROWS: writes the module with so many cases to a theorem and checks it
compare() {
    "$repository/target/rust/release/calls" "$seed" "$count" "$1" > "$module"
    (cd "$copy/crates/passes" && rt check) > "$copy/log" 2>&1
}

# how many cases the module has
cases() { grep -c '^ *-- case [0-9]*: ' "$module"; }

# one line of counts: yes, then the refusals by number
print_answers() {
    sed -n 's/^ *-- case [0-9]*: //p' "$module" | sort -V | uniq -c | awk '{ printf "%s%s: %s", (NR > 1 ? ", " : "answers: "), $2, $1 } END { print "" }'
}

cargo build --quiet --release --offline --manifest-path "$repository/rust/Cargo.toml" --target-dir "$repository/target/rust" -p oracle
if ! "$repository/target/rust/release/calls" chosen | diff -q - "$repository/crates/passes/proofs/Chosen.antt" > "$copy/log"; then
    echo "compare_calls: crates/passes/proofs/Chosen.antt is not what \`calls chosen\` writes" >&2
    exit 1
fi
copy_crates
if compare 25; then
    echo "agreed: $(cases) of $(cases) cases (seed $seed)"
    print_answers
    exit 0
fi
compare 1 || true
# a failure that names no case is one of the tools
differing=$(grep -o 'error: `agree[0-9]*`' "$copy/log" | grep -o '[0-9]*' | sort -nu) || { tail -n 20 "$copy/log" >&2; exit 2; }
echo "agreed: $(($(cases) - $(wc -w <<< "$differing"))) of $(cases) cases (seed $seed)"
print_answers
for case in $differing; do
    echo "differs: case $case"
    row=$(grep -A 1 -- "-- case $case:" "$module" | tail -n 1)
    echo "$row"
    grep -A 1 "^abbrev $(grep -o 'tape[0-9][0-9]*' <<< "$row") " "$module" | tail -n 1
    grep -A 1 "error: .agree$case\`" "$copy/log"
done
exit 1
