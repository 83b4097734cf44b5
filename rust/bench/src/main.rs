//! What the calls cost: beside LALRPOP's own passes on grammars like grammar files and on hostile ones, in instructions, and at sizes up to 4 MiB.
//! `--macros`, `--whole` and `--sizes` print those tables alone.
//! Ends with status 1 where a byte takes more than half as long again at 4 MiB as at 64 KiB (large).
#![deny(unsafe_code)]

mod callgrind;
mod clock;
mod grammars;
mod hostile;
mod large;
mod levels;
mod macros;
mod measure;
mod subject;
mod tapes;
mod whole;

use callgrind::Call;
use grammars::SIZES;
use measure::{least_of, resolving, validating};
use std::process::ExitCode;
use subject::{Subject, SYMBOLS};

/// Runs of the names.
const RUNS: usize = 80;

fn main() -> ExitCode {
    let arguments: Vec<String> = std::env::args().skip(1).collect();
    match arguments.first().map(String::as_str) {
        Some("--once") => callgrind::once(&arguments[1..]),
        Some("--macros") => macros::tell(),
        Some("--whole") => whole::tell(),
        Some("--sizes") => drop(large::tell()),
        _ => return all(),
    }
    ExitCode::SUCCESS
}

fn all() -> ExitCode {
    compare();
    count();
    levels::tell();
    macros::tell();
    whole::tell();
    let is_linear = large::tell();
    sizes_on_huge_pages();
    names();
    if is_linear {
        ExitCode::SUCCESS
    } else {
        ExitCode::FAILURE
    }
}

/// Ours beside LALRPOP's.
fn compare() {
    println!("Nanoseconds for each byte of the tape; LALRPOP's `resolve` has its parse tree ready.\n");
    println!("| nonterminals | tape, bytes | validating | resolving | copying and clearing | LALRPOP | LALRPOP / resolving |");
    println!("|---|---|---|---|---|---|---|");
    for size in SIZES {
        let subject = Subject::of_grammar(size);
        let figures = measure::figures(&subject, &subject.tree());
        let ours = [figures.validating, figures.resolving, figures.copying].map(|figure| format!("{figure:.2}")).join(" | ");
        let theirs = figures.theirs.map_or("– | –".into(), |(theirs, ratio)| format!("{theirs:.2} | {ratio:.2}"));
        println!("| {size} | {} | {ours} | {theirs} |", subject.tape.len());
    }
    if !oracle::is_there() {
        println!("\nNothing of LALRPOP is measured: {}.", oracle::NOT_THERE);
    }
}

/// Instructions of one call.
fn count() {
    if !callgrind::is_there() {
        println!("\nInstructions are not counted: there is no valgrind.");
        return;
    }
    println!("\nInstructions for each byte of the tape, the clearing of memory not counted.\n");
    println!("| nonterminals, or bytes of symbols | validating | resolving | LALRPOP | LALRPOP / resolving |\n|---|---|---|---|---|");
    for size in &SIZES[..4] {
        instructions_of(&size.to_string(), oracle::is_there());
    }
    for size in [4 << 10, 64 << 10, 1 << 20] {
        instructions_of(&format!("{SYMBOLS}{size}"), false);
    }
    functions(Call::Resolve, "resolving", "128");
}

/// One line, with LALRPOP or without.
fn instructions_of(word: &str, with_theirs: bool) {
    let [validating, resolving] = [Call::Validate, Call::Resolve].map(|call| callgrind::per_byte(call, word));
    let theirs = with_theirs.then(|| callgrind::per_byte(Call::LalrpopResolve, word));
    let theirs = theirs.map_or("– | –".into(), |theirs| format!("{theirs:.1} | {:.2}", theirs / resolving));
    println!("| {word} | {validating:.1} | {resolving:.1} | {theirs} |");
}

/// Where a call spends its instructions.
fn functions(call: Call, name: &str, word: &str) {
    let all = callgrind::instructions(call, word);
    let total: u64 = all.iter().map(|(count, _)| count).sum();
    println!("\n| function, {name} at {word} nonterminals | share |\n|---|---|");
    for (count, name) in all {
        println!("| `{name}` | {:.0} % |", 100.0 * count as f64 / total as f64);
    }
}

/// The same once more with the buffers on huge pages, which the C library asks for by itself where it is told so.
fn sizes_on_huge_pages() {
    println!("\nOn huge pages:");
    let bench = std::env::current_exe().expect("the path of this program");
    let told = std::process::Command::new(bench).arg("--sizes").env("GLIBC_TUNABLES", "glibc.malloc.hugetlb=1").status();
    if !told.is_ok_and(|status| status.success()) {
        println!("\nnot measured.");
    }
}

/// Names that all fall into one bucket of the table of atoms.
fn names() {
    println!("\nNanoseconds for each of {} names of {} letters.\n", tapes::NAMES, tapes::LENGTH);
    println!("| names | validating | resolving |\n|---|---|---|");
    for (name, tape) in [("ordinary", tapes::names_of_many()), ("all of one hash", tapes::names_of_one_hash())] {
        let subject = Subject::of_tape(tape);
        let of = |run| least_of(run, RUNS) / tapes::NAMES as f64;
        let (validating, resolving) =
            (of(validating(&subject, subject.work_of_validating())), of(resolving(&subject, subject.work_of_resolving())));
        println!("| {name} | {validating:.0} | {resolving:.0} |");
    }
}
