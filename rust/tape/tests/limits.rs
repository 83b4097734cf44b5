//! What the counts of a tape can hold, and one more.
mod common;
use common::carried;
use tape::lalrpop::parse;

/// The most is carried; one more is refused there, with this sentence.
#[track_caller]
fn at_most(most: usize, grammar: impl Fn(usize) -> String, no: &str) {
    let text = |count| format!("grammar;{}", grammar(count));
    carried(&text(most));
    assert_eq!(parse(&text(most + 1)).unwrap_err().to_string(), no);
}

fn commas(part: &str, count: usize) -> String {
    vec![part; count].join(",")
}

#[test]
fn counts() {
    at_most(255, |n| format!("M<{}> = B;", commas("P", n)), "1:9: a macro with more than 255 arguments can't be carried");
    at_most(255, |n| format!("A = M<{}>;", commas("P", n)), "1:13: a macro call with more than 255 arguments can't be carried");
    at_most(255, |n| format!("A = {}B;", "#[a]".repeat(n)), "1:13: an alternative with more than 255 attributes can't be carried");
    let alternatives = "1:9: a nonterminal with more than 65,535 alternatives can't be carried";
    at_most(65_535, |n| format!("A = {{{}}};", commas("B", n)), alternatives);
    at_most(65_535, |n| format!("A = {};", "B ".repeat(n)), "1:13: an alternative with more than 65,535 symbols can't be carried");
    at_most(65_535, |n| format!("A = ({});", "B ".repeat(n)), "1:13: a group with more than 65,535 symbols can't be carried");
}

#[test]
fn depth() {
    let deep = |column| format!("1:{column}: a symbol more than 64 deep can't be carried");
    let nested = |open: &str, close: &str, n: usize| format!("A = {}B{};", open.repeat(n - 1), close.repeat(n - 1));
    at_most(64, |n| nested("(", ")", n), &deep(13 + 64));
    at_most(64, |n| nested("<", ">", n), &deep(13 + 64));
    at_most(64, |n| nested("M<", ">", n), &deep(13 + 2 * 64));
    at_most(64, |n| nested("", "*", n), &deep(13));
    // a group and its repeat are two deep: 63, then 65
    at_most(32, |n| nested("(", ")?", n), &deep(13));
    // far more is no deeper recursion
    for open in ["(", "<", "M<", "<b:"] {
        assert_eq!(parse(&format!("grammar;A = {}", open.repeat(100_000))).unwrap_err().to_string(), deep(13 + 64 * open.len()));
    }
    assert_eq!(parse(&format!("grammar;A = B{};", "+".repeat(100_000))).unwrap_err().to_string(), deep(13));
}

#[test]
fn texts() {
    let long = "a text of more than 65,535 bytes can't be carried";
    at_most(65_535, |n| format!("A = \"{}\";", "a".repeat(n)), &format!("1:13: {long}"));
    at_most(65_535, |n| format!("{} = B;", "a".repeat(n)), &format!("1:9: {long}"));
    at_most(65_535, |n| format!("A = =>  {} ;", "a".repeat(n)), &format!("1:13: {long}"));
    // A, then quoted ones, each eight characters with its comma; `inline` is none of them
    let many = |n| format!("#[inline] A = {{{}}};", (1..n).map(|k| format!("\"{k:05}\",")).collect::<String>());
    let column = 9 + "#[inline] A = {".len() + 8 * 65_535;
    at_most(65_536, many, &format!("1:{column}: more than 65,536 different texts can't be carried"));
}
