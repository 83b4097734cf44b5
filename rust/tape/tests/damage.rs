//! Whatever is done to a grammar, it is carried, or there is a sentence about a place in it.
mod common;
use common::carried;
use tape::lalrpop::parse;

const GRAMMAR: &str = r##"#![a(b)] use c::{d};
grammar<'i>(t: &'i str); // é
extern { type L = u8; enum T<'i> { "x" => X(<&'i str>), n => N } }
match { r#"é"# => m, _ } else { "q" => {} }
#[inline] pub(crate) M<P, Q>: Vec<(P, Q)> = {
    #[p(l = "\"1")] <p:P*> (Q "x")+ <mut q:M<"a", n?>> if P != "b" => f('}', "}\\", 'i', r"\"),
    <Q> /* } */ @L ! =>? { g(<>)? }, =>@R
};
A = <M<n, r"z">> @R;"##;

/// That there is an answer, and where.
fn answered(text: &str) {
    match parse(text) {
        Ok(_) => drop(carried(text)),
        Err(no) => {
            let line = text.split('\n').nth(no.line - 1).expect("a line of the text");
            assert!(no.column <= line.chars().count() + 1 && !no.what.is_empty(), "{no}\n{text}");
        }
    }
}

#[test]
fn a_character_less_or_more_is_answered() {
    carried(GRAMMAR);
    for (at, character) in GRAMMAR.char_indices() {
        let (before, behind) = (&GRAMMAR[..at], &GRAMMAR[at + character.len_utf8()..]);
        answered(before);
        answered(&[before, behind].concat());
        for other in "\"'`#<>(){}[],;:=!?@/*\\ré _\n".chars() {
            answered(&format!("{before}{other}{behind}"));
            answered(&format!("{before}{other}{character}{behind}"));
        }
    }
}
