//! One call of ours beside the expected outcome: answer, tree, bytes behind, work.
use crate::case::Case;
use crate::stages::decided;
use normalize::Words;
use oracle::chance::Chance;
use oracle::Call;
use reading::commands::hex;
use reading::Outcome;

/// Tape, limit, output, work, and the words of the answer.
pub type Made<'a> = &'a dyn Fn(&[u8], u16, &mut [u8], &mut [u8], &mut Words);

/// Our call, and which one of document 01's it should be.
#[derive(Clone, Copy)]
pub struct Ours<'a> {
    pub call: Call,
    pub made: Made<'a>,
}

/// The archive's calls.
pub const RESOLVE: Ours =
    Ours { call: Call::Resolve, made: &|tape, _, output, work, answer| normalize::resolve_words(tape, output, work, answer) };
pub const LEVELS: Ours =
    Ours { call: Call::Levels, made: &|tape, _, output, work, answer| normalize::levels_words(tape, output, work, answer) };
pub const MACROS: Ours = Ours { call: Call::Macros, made: &normalize::macros_words };
pub const WHOLE: Ours = Ours { call: Call::Whole, made: &normalize::whole_words };
/// Validating has no limit and no output.
pub const VALIDATE: Made = &|tape, _, _, work, answer| normalize::validate_words(tape, work, answer);

#[derive(Clone, Debug, PartialEq, Eq)]
pub enum Verdict {
    /// The number of the refusal, 0 for a yes, and how many rounds of macros were over.
    Agreed(u8, usize),
    /// The Rust would have to be asked, and isn't there.
    Skipped,
    Differs(String),
}

/// A buffer between bytes that nobody may touch, at any alignment.
#[derive(Clone)]
struct Fenced {
    bytes: Vec<u8>,
    front: usize,
}

const BEHIND: usize = 16;

impl Fenced {
    fn dirty(chance: &mut Chance, length: usize) -> Fenced {
        let front = 16 + chance.under(16);
        Fenced { bytes: chance.bytes(front + length + BEHIND), front }
    }

    fn inside(&mut self) -> &mut [u8] {
        let end = self.bytes.len() - BEHIND;
        &mut self.bytes[self.front..end]
    }

    /// The first place where it isn't as it should be, told from the inside's first byte.
    fn differing(&self, name: &str, right: &Fenced) -> Option<String> {
        let at = self.bytes.iter().zip(&right.bytes).position(|(a, b)| a != b)?;
        let (end, place) = ((at + 8).min(self.bytes.len()), at as isize - self.front as isize);
        let (ours, right) = (hex(&self.bytes[at..end]), hex(&right.bytes[at..end]));
        Some(format!("{name} from byte {place} {ours}, expected {right}"))
    }
}

/// What document 01 and the Rust say to the case.
pub fn expected(case: &Case, call: Call) -> Option<Outcome> {
    outcome_and_rounds(case, call).map(|(outcome, _)| outcome)
}

/// The same, and how many rounds of macros were over.
fn outcome_and_rounds(case: &Case, call: Call) -> Option<(Outcome, usize)> {
    match reading::asked(&case.tape, case.output_len(), case.work_len()) {
        Ok(stage) => decided(&stage, call, case.limit, case.output_len()),
        Err(refusal) => Some((Err(refusal), 0)),
    }
}

pub fn judge(case: &Case, dirt: u64, ours: Ours) -> Verdict {
    let Some((outcome, rounds)) = outcome_and_rounds(case, ours.call) else { return Verdict::Skipped };
    let tree = outcome.as_deref().unwrap_or_default();
    difference(case, dirt, words(&outcome), tree, ours.made).map_or(Verdict::Agreed(number(&outcome), rounds), Verdict::Differs)
}

/// Validating alone, of a case without output: 1 to 4 of the second reading, and a yes with the tape's length.
pub fn judge_validating(case: &Case, dirt: u64, made: Made) -> Verdict {
    assert_eq!(case.output_len(), 0, "validating writes no output");
    let outcome = reading::asked(&case.tape, 0, case.work_len()).map(|_| case.tape.clone());
    difference(case, dirt, words(&outcome), &[], made).map_or(Verdict::Agreed(number(&outcome), 0), Verdict::Differs)
}

/// The number of the refusal, 0 for a yes.
fn number(outcome: &Outcome) -> u8 {
    outcome.as_ref().err().map_or(0, |refusal| refusal.number)
}

/// These words and this tree are right. The old bytes of output, work and answer are any, as `dirt` fixes them.
fn difference(case: &Case, dirt: u64, right_answer: Words, tree: &[u8], made: Made) -> Option<String> {
    let mut chance = Chance(dirt);
    let mut output = Fenced::dirty(&mut chance, case.output_len());
    let mut work = Fenced::dirty(&mut chance, case.work_len());
    let mut answer: Words = std::array::from_fn(|_| chance.word());
    let (mut right_output, mut right_work) = (output.clone(), work.clone());
    put(tree, case.tape.len(), right_output.inside(), right_work.inside());
    made(&case.tape, case.limit, output.inside(), work.inside(), &mut answer);
    if answer != right_answer {
        return Some(format!("answer {answer:?}, expected {right_answer:?}"));
    }
    let output = output.differing("output", &right_output);
    output.or_else(|| work.differing("work", &right_work))
}

/// What a call of a tape so long leaves in its buffers.
pub fn leave(outcome: &Outcome, tape: usize, output: &mut [u8], work: &mut [u8], answer: &mut Words) {
    put(outcome.as_deref().unwrap_or_default(), tape, output, work);
    *answer = words(outcome);
}

/// A tree before the old bytes, and work all zero where it is long enough.
fn put(tree: &[u8], tape: usize, output: &mut [u8], work: &mut [u8]) {
    output[..tree.len()].copy_from_slice(tree);
    if work.len() >= reading::work_needed(tape, output.len()) {
        work.fill(0);
    }
}

/// The words of an answer; those behind the ones that say something are 0.
pub fn words(outcome: &Outcome) -> Words {
    let mut words = Words::default();
    match outcome {
        Ok(tree) => words[..2].copy_from_slice(&[1, tree.len() as u64]),
        Err(refusal) => words[1..4].copy_from_slice(&[u64::from(refusal.number), refusal.place.0, refusal.place.1]),
    }
    words
}
