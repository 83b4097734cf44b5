//! Instructions, by valgrind's tool callgrind, which counts those of one call and nothing else: the same number on every run.
//! `bench --once CALL SUBJECT` is what it runs: one call. The subject is a number of nonterminals, `symbols-SIZE`, or a hostile grammar's name and count.
use crate::subject::Subject;
use oracle::Ready;
use std::collections::HashMap;
use std::hint::black_box;
use std::process::{Command, Stdio};

/// A call, as `--once` has it, and the function whose instructions are counted, with those that it calls.
#[derive(Clone, Copy)]
pub enum Call {
    Validate,
    Resolve,
    /// LALRPOP's `resolve` of the tree as it is read.
    LalrpopResolve,
    Levels,
    /// Its `resolve` of a tree that is resolved.
    LalrpopAgain,
    /// Its `expand_precedence` of a tree that is resolved.
    LalrpopLevels,
    Macros,
    /// Its `expand_macros` of the tree as it is read.
    LalrpopMacros,
    Whole,
    /// Its `expand_macros` over its `expand_precedence`.
    LalrpopWhole,
}

impl Call {
    fn word(self) -> &'static str {
        match self {
            Call::Validate => "validate",
            Call::Resolve => "resolve",
            Call::LalrpopResolve => "lalrpop",
            Call::Levels => "levels",
            Call::LalrpopAgain => "lalrpop-again",
            Call::LalrpopLevels => "lalrpop-levels",
            Call::Macros => "macros",
            Call::LalrpopMacros => "lalrpop-macros",
            Call::Whole => "whole",
            Call::LalrpopWhole => "lalrpop-whole",
        }
    }

    fn function(self) -> &'static str {
        match self {
            Call::Validate => "normalize_validate",
            Call::Resolve => "normalize_resolve",
            Call::LalrpopResolve | Call::LalrpopAgain => "*lalrpop_resolves*",
            Call::Levels => "normalize_levels",
            Call::LalrpopLevels => "*lalrpop_levels*",
            Call::Macros => "normalize_macros",
            Call::LalrpopMacros => "*lalrpop_expands*",
            Call::Whole => "normalize_whole",
            Call::LalrpopWhole => "*lalrpop_passes*",
        }
    }
}

/// Whether valgrind can be run.
pub fn is_there() -> bool {
    Command::new("valgrind").arg("--version").stdout(Stdio::null()).stderr(Stdio::null()).status().is_ok_and(|status| status.success())
}

/// The call that the arguments behind `--once` name, made once.
pub fn once(arguments: &[String]) {
    let [call, word] = arguments else { panic!("--once CALL SUBJECT") };
    let subject = Subject::of_word(word);
    match call.as_str() {
        "validate" => subject.validate(&mut subject.work_of_validating()),
        "resolve" => subject.resolve(&mut subject.output(), &mut subject.work_of_resolving()),
        // the call that would tell the tree's length would be counted too
        "levels" => assert!(subject.levels_once() > 0),
        "lalrpop" => drop(black_box(subject.ready.map(lalrpop_resolves))),
        "lalrpop-again" => drop(black_box(subject.ready.and_then(Ready::resolved).map(lalrpop_resolves))),
        "lalrpop-levels" => drop(black_box(subject.ready.and_then(Ready::resolved).map(lalrpop_levels))),
        "macros" => assert!(subject.once(normalize::macros) > 0),
        "whole" => assert!(subject.once(normalize::whole) > 0),
        "lalrpop-whole" => drop(black_box(subject.ready.map(lalrpop_passes))),
        "lalrpop-macros" => drop(black_box(subject.ready.map(lalrpop_expands))),
        _ => panic!("CALL is validate, resolve, levels, macros, whole, lalrpop, or lalrpop- with again, levels, macros or whole"),
    }
}

// none is inlined, so that callgrind finds each by its name

#[inline(never)]
fn lalrpop_resolves(ready: Ready) -> Option<Ready> {
    ready.resolved()
}

#[inline(never)]
fn lalrpop_levels(ready: Ready) -> Option<Ready> {
    ready.levelled()
}

#[inline(never)]
fn lalrpop_expands(ready: Ready) -> Option<Ready> {
    ready.expanded()
}

#[inline(never)]
fn lalrpop_passes(ready: Ready) -> Option<Ready> {
    ready.passed()
}

/// The instructions of a call by function, the most first. Those of `memset`, which clears work and tables, are left out: callgrind counts one
/// for each byte where the processor is asked once for all; and those of `clear_blocks`, which looks at long work before it is cleared.
pub fn instructions(call: Call, word: &str) -> Vec<(u64, String)> {
    let program = std::env::current_exe().expect("the program's own path");
    let file = program.with_file_name(format!("callgrind.{}.{word}", call.word()));
    let status = Command::new("valgrind")
        .args(["--tool=callgrind", "--quiet", &format!("--toggle-collect={}", call.function())])
        .arg(format!("--callgrind-out-file={}", file.display()))
        .arg(program)
        .args(["--once", call.word(), word])
        .status()
        .expect("valgrind runs");
    assert!(status.success(), "valgrind ended with {status}");
    let mut all = by_function(&std::fs::read_to_string(file).expect("callgrind's file"));
    assert!(!all.is_empty(), "callgrind saw no call of {}", call.function());
    all.retain(|(_, name)| !name.contains("memset") && !name.contains("clear_blocks"));
    all.sort_by(|one, other| other.cmp(one));
    all
}

/// Their sum.
pub fn sum(call: Call, word: &str) -> f64 {
    instructions(call, word).iter().map(|(count, _)| *count as f64).sum()
}

/// The sum, for each byte of the tape.
pub fn per_byte(call: Call, word: &str) -> f64 {
    sum(call, word) / Subject::of_word(word).tape.len() as f64
}

/// What callgrind's file says of each function without those that it calls: a line `fn=(7) name`, or `fn=(7)` where the name was said before,
/// then lines of a place and a count. The line behind `calls=` counts what is called.
fn by_function(file: &str) -> Vec<(u64, String)> {
    let (mut names, mut counts) = (HashMap::new(), HashMap::new());
    let (mut function, mut lines) = ("", file.lines());
    while let Some(line) = lines.next() {
        if let Some(said) = line.strip_prefix("fn=").or(line.strip_prefix("cfn=")) {
            let (number, name) = said.split_once(' ').unwrap_or((said, ""));
            // a call of itself, deeper: name'2
            let name = *names.entry(number).or_insert(name.split('\'').next().unwrap_or(name));
            function = if line.starts_with("fn=") { name } else { function };
        } else if line.starts_with("calls=") {
            lines.next();
        } else if line.starts_with(|first: char| first.is_ascii_digit() || "+-*".contains(first)) {
            let count: u64 = line.split(' ').nth(1).and_then(|count| count.parse().ok()).unwrap_or(0);
            *counts.entry(function).or_insert(0) += count;
        }
    }
    counts.into_iter().map(|(name, count)| (count, name.to_string())).collect()
}

#[cfg(test)]
mod tests {
    use super::*;

    #[test]
    fn its_file_is_read() {
        let file = "positions: line\nevents: Ir\nfn=(1) main\n12 5\ncfn=(2) memset\ncalls=1 0\n12 70\n+1 4\nfn=(2)\n0 70\nfn=(3) main'2\n8 1\ntotals: 80\n";
        let mut found = by_function(file);
        found.sort();
        assert_eq!(found, [(10, "main".to_string()), (70, "memset".to_string())]);
    }
}
