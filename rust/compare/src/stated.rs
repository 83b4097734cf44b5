//! Cases of macros and of the whole whose answers are stated with all their numbers. 22, 28 and 29 number readings of document 01 in a list that is no
//! part of this repository (not docs/DECISIONS.md): 22 (what was
//! pushed last, however long its printed form is), 28 (how many symbols can be pending), 29 (how long their names can be together).
use crate::case::{round_lengths, Case, Room, Rounds};
use crate::chosen::{has_rounds, line};
use crate::judge::expected;
use oracle::Call;
use reading::{parse, write, Refusal};

/// A case, and what is stated of it: the refusal, or a yes.
pub struct Stated {
    pub name: &'static str,
    pub case: Case,
    pub refused: Option<Refusal>,
}

/// All of them; none has levels, so both calls answer alike. Work is just long enough everywhere.
pub fn all() -> Vec<Stated> {
    [pushed_last(), many_pending(), long_names()].into_iter().flatten().collect()
}

/// The lines of crates/cases for a call with rounds, each with its answer by the second reading and the Rust, or nothing where the Rust isn't there.
pub fn lines(call: Call) -> Option<Vec<(String, String)>> {
    let list = if has_rounds(call) { all() } else { vec![] };
    list.iter().map(|stated| Some(line(call, stated.name, &stated.case, &expected(&stated.case, call)?))).collect()
}

/// With an output as long as the tape.
fn stated(name: &'static str, limit: u16, grammar: &str, refused: Option<Refusal>) -> Stated {
    Stated { name, case: Case::fitting(write(&parse(grammar))).within(limit), refused }
}

fn refused(number: u8, from: usize, to: usize) -> Option<Refusal> {
    Some(Refusal { number, place: (from as u64, to as u64) })
}

impl Stated {
    /// With an output so many bytes shorter than the longest stage.
    fn below_the_longest(mut self, bytes: usize) -> Stated {
        let rounds = Rounds { call: Call::Macros, limit: self.case.limit, longest: usize::MAX };
        let longest = round_lengths(&self.case.tape, rounds).into_iter().max().unwrap_or(0);
        let output = longest as isize - bytes as isize - self.case.tape.len() as isize;
        self.case.room = Room { output, work: 0 };
        self
    }
}

/// Reading 22: 18 is at the last symbol really pushed. Forms of 90,004 bytes, longer than every buffer, are compared exactly: of two equal ones only the
/// first is pushed, of two that differ in one byte near their end both are.
fn pushed_last() -> Vec<Stated> {
    let (one, other) = ("x".repeat(1_578), "x".repeat(1_577) + "y");
    let group = |last: &str| format!("({}{last})", format!("{one} ").repeat(56));
    let equal = format!("S = {} {}; extern {{ enum T {{ {one} => N }} }}", group(&one), group(&one));
    let different = format!("S = {} {}; extern {{ enum T {{ {one} => N, {other} => N }} }}", group(&one), group(&other));
    let length = group(&one).len();
    let (first, second) = (4, 4 + length + 1);
    vec![
        stated("reading-22-lookarounds", 0, "S = @L n* @L; extern { enum T { n => N } }", refused(18, 7, 9)),
        stated("reading-22-equal-groups", 0, &equal, refused(18, first, first + length)),
        stated("reading-22-different-groups", 0, &different, refused(18, second, second + length)),
    ]
}

/// Reading 28: fewer symbols are pending than a tenth of the output's length. Here a stage is full of the smallest ones, 63 question marks on each
/// lookaround: 128 in a tape of 1,313 bytes. With an output as long as the tape all are pushed, and it is 18, or 21 at the appending stage. With an output
/// just long enough for every stage it is a yes, with a byte less 21.
fn many_pending() -> Vec<Stated> {
    let [left, right] = ["@L", "@R"].map(|leaf| format!("{leaf}{}", "?".repeat(63)));
    let grammar = format!("S = {left} {right};");
    let last = 4 + left.len() + 1;
    vec![
        stated("reading-28-no-round", 0, &grammar, refused(18, last, last + right.len())),
        stated("reading-28-one-round", 1, &grammar, refused(21, 0, 0)),
        stated("reading-28-a-byte-less", 1, &grammar, refused(21, 0, 0)).below_the_longest(1),
        stated("reading-28-every-stage-fits", 1, &grammar, None).below_the_longest(0),
    ]
}

/// Reading 29: the names of what is pending have 26,939 bytes together, work 17,872; the tape has 1,117, and the output is as long.
fn long_names() -> Vec<Stated> {
    let name = "x".repeat(400);
    let grammar = format!("S = (<m:{name}>){}; {name} = =>@L;", "*".repeat(61));
    vec![stated("reading-29-names-longer-than-work", 64, &grammar, refused(19, 4, 410))]
}
