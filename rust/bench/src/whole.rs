//! The whole call beside LALRPOP's `expand_macros` over its `expand_precedence`, which have their parse tree ready: on grammars like grammar files, and on
//! hostile ones. The bytes are those of the tape and the tree.
use crate::callgrind::{self, sum, Call};
use crate::functions;
use crate::grammars::SIZES;
use crate::hostile::ALL;
use crate::measure::{expanding, median, so_many_turns, theirs, AIM, TURNS};
use crate::subject::Subject;
use oracle::Ready;

/// Hostile grammars take long.
const FEW_TURNS: usize = 5;

pub fn tell() {
    println!("\nThe whole: nanoseconds for each byte of the tape and the tree, and instructions without the clearing of memory.\n");
    println!("| nonterminals | tape, bytes | tree, bytes | call | LALRPOP | LALRPOP / call | instructions | LALRPOP's |");
    println!("|---|---|---|---|---|---|---|---|");
    let ratios = SIZES.iter().filter_map(|size| line(&size.to_string(), TURNS, &Subject::of_grammar(*size)).ratio);
    if let Some(least) = ratios.reduce(f64::min) {
        let end = if least >= AIM { "at least" } else { "and that is not at least" };
        println!("\nLALRPOP's passes over the call: the least is {least:.2}, {end} {AIM}.");
    }
    hostile();
    if callgrind::is_there() {
        functions(Call::Whole, "the whole", "128");
    }
}

fn hostile() {
    println!("\nHostile grammars.\n");
    println!("| grammar and count | tape, bytes | tree, bytes | call | LALRPOP | LALRPOP / call | instructions | LALRPOP's |");
    println!("|---|---|---|---|---|---|---|---|");
    for hostile in &ALL {
        let [small, large] = [hostile.small, hostile.large].map(|count| {
            let word = hostile.named(count);
            line(&word, FEW_TURNS, &Subject::of_word(&word)).ours
        });
        println!("| {}: {} | | | {:.2} times | | | | |", hostile.word, hostile.about, large / small);
    }
}

/// Nanoseconds for each byte, and theirs over ours.
struct Figures {
    ours: f64,
    ratio: Option<f64>,
}

/// One line of a table.
fn line(word: &str, count: usize, subject: &Subject) -> Figures {
    let (tape, tree) = (subject.tape.len(), subject.passed());
    let mut runs = vec![expanding(subject, normalize::whole)];
    runs.extend(subject.ready.as_ref().map(|ready| theirs(ready, tape, Ready::passed)));
    let all = so_many_turns(count, runs, tape + tree);
    let ours = median(all[0].clone());
    let ratio = all.get(1).map(|theirs| median(theirs.iter().zip(&all[0]).map(|(theirs, ours)| theirs / ours).collect()));
    let times = all.get(1).zip(ratio).map_or("– | –".into(), |(theirs, ratio)| format!("{:.2} | {ratio:.2}", median(theirs.clone())));
    println!("| {word} | {tape} | {tree} | {ours:.2} | {times} | {} |", counted(word, tape + tree, subject.ready.is_some()));
    Figures { ours, ratio }
}

/// Instructions for each byte, ours and theirs.
fn counted(word: &str, bytes: usize, with_theirs: bool) -> String {
    if !callgrind::is_there() {
        return "– | –".into();
    }
    let per_byte = |call| sum(call, word) / bytes as f64;
    let theirs = if with_theirs { format!("{:.1}", per_byte(Call::LalrpopWhole)) } else { "–".into() };
    format!("{:.1} | {theirs}", per_byte(Call::Whole))
}

#[cfg(test)]
mod tests {
    use super::*;

    /// They are expanded as LALRPOP does it, and have about the size that is told.
    #[test]
    fn they_are_expanded() {
        for size in &SIZES[..4] {
            assert!(Subject::of_grammar(*size).passed() > 0);
        }
        for hostile in &ALL {
            let subject = Subject::of_word(&hostile.named(hostile.small));
            let bytes = subject.tape.len() + subject.passed();
            assert!((48 << 10..96 << 10).contains(&bytes), "{}: {bytes}", hostile.word);
        }
    }
}
