//! Macros beside LALRPOP's `expand_macros`, which has its parse tree ready and resolves it first, as our call does. The bytes are those of the tape and the tree.
use crate::callgrind::{self, sum, Call};
use crate::functions;
use crate::grammars::SIZES;
use crate::measure::{expanding, median, theirs, turns};
use crate::subject::Subject;
use oracle::Ready;

pub fn tell() {
    println!("\nMacros: nanoseconds for each byte of the tape and the tree.\n");
    println!("| nonterminals | tape, bytes | tree, bytes | call | LALRPOP | LALRPOP / call |");
    println!("|---|---|---|---|---|---|");
    for size in SIZES {
        line(&size.to_string(), &Subject::of_grammar(size));
    }
    count();
}

/// One line of the table.
fn line(name: &str, subject: &Subject) {
    let (tape, tree) = (subject.tape.len(), subject.once(normalize::macros));
    let mut runs = vec![expanding(subject, normalize::macros)];
    runs.extend(subject.ready.as_ref().map(|ready| theirs(ready, tape, Ready::expanded)));
    let all = turns(runs, tape + tree);
    let ours = median(all[0].clone());
    let front = format!("| {name} | {tape} | {tree} | {ours:.2} |");
    match all.get(1).map(|theirs| median(theirs.clone())) {
        None => println!("{front} – | – |"),
        Some(theirs) => println!("{front} {theirs:.2} | {:.2} |", theirs / ours),
    }
}

/// Instructions for each byte, and where they go.
fn count() {
    if !callgrind::is_there() {
        return;
    }
    println!("\nInstructions for each byte of the tape and the tree, by callgrind, without clearing: the call, and LALRPOP's.\n");
    for size in SIZES {
        let (word, subject) = (size.to_string(), Subject::of_grammar(size));
        let bytes = (subject.tape.len() + subject.once(normalize::macros)) as f64;
        let theirs = subject.ready.is_some().then(|| format!(", {:.1}", sum(Call::LalrpopMacros, &word) / bytes)).unwrap_or_default();
        println!("{size} nonterminals: {:.1}{theirs}", sum(Call::Macros, &word) / bytes);
    }
    functions(Call::Macros, "macros", "128");
}
