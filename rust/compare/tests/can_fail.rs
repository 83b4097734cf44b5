//! The comparison can fail: a stand-in made of the second reading and the Rust agrees, and with one fault planted it doesn't.
use compare::case::Case;
use compare::judge::{expected, leave, Ours};
use compare::mix;
use compare::run::run;
use compare::shrink::shrink;
use compare::stages::deciding;
use compare::tally::Tally;
use compare::the_rust_is_there;
use normalize::Words;
use oracle::chance::Chance;
use oracle::{Call, CALLS};
use reading::Outcome;

/// What a call leaves behind.
struct Left<'a> {
    output: &'a mut [u8],
    work: &'a mut [u8],
    answer: &'a mut Words,
}

type Fault = fn(&Outcome, &mut Left);

/// The stand-in for a call, then the fault.
fn stand_in(call: Call, fault: Fault) -> impl Fn(&[u8], u16, &mut [u8], &mut [u8], &mut Words) {
    oracle::panics_are_answers();
    move |tape, limit, output, work, answer| {
        let steps = |stage: &_| deciding(stage, call, limit, output.len());
        let outcome = reading::answer(tape, output.len(), work.len(), steps).expect("the Rust was there to be asked");
        leave(&outcome, tape.len(), output, work, answer);
        fault(&outcome, &mut Left { output, work, answer });
    }
}

fn refused(outcome: &Outcome, number: u8) -> bool {
    outcome.as_ref().is_err_and(|refusal| refusal.number == number)
}

/// How many cases each fault is tried on.
fn count(call: Call) -> usize {
    match call {
        Call::Resolve => 1_500,
        Call::Levels => 800,
        Call::Macros | Call::Whole => 600,
    }
}

fn cases(call: Call) -> impl Iterator<Item = Case> {
    let (chance, any) = (Chance(7), usize::MAX);
    let cases: Box<dyn Iterator<Item = Case>> = match call {
        Call::Resolve => Box::new(mix::cases(chance)),
        Call::Levels => Box::new(mix::level_cases(chance, any)),
        Call::Macros => Box::new(mix::macro_cases(chance, any)),
        Call::Whole => Box::new(mix::whole_cases(chance, any)),
    };
    cases.take(count(call))
}

/// The stand-in with this fault beside the Rust.
fn tally(call: Call, fault: Fault) -> Tally {
    run(cases(call), 7, Ours { call, made: &stand_in(call, fault) })
}

fn turn(byte: Option<&mut u8>) {
    if let Some(byte) = byte {
        *byte ^= 1;
    }
}

#[test]
fn without_a_fault_all_agree() {
    for call in CALLS {
        let tally = tally(call, |_, _| {});
        println!("{call:?}: {tally}");
        assert_eq!((tally.differences, tally.agreed() + tally.skipped), (0, count(call)));
    }
}

/// Faults that show without the Rust too.
const PLAIN: [Fault; 4] = [
    |outcome, left| left.answer[3] += u64::from(refused(outcome, 3)),
    |outcome, left| turn(left.work.first_mut().filter(|_| refused(outcome, 1))),
    |outcome, left| turn(left.work.last_mut().filter(|_| refused(outcome, 2))),
    |outcome, left| turn(left.output.last_mut().filter(|_| refused(outcome, 4))),
];

/// Faults in what the Rust has to say.
const OF_RESOLVING: [Fault; 5] = [
    |outcome, left| left.answer[2] ^= u64::from(outcome.is_ok()),
    |outcome, left| turn(left.output.first_mut().filter(|_| outcome.is_ok())),
    |outcome, left| {
        let behind = outcome.as_ref().ok().and_then(|tree| left.output.get_mut(tree.len()));
        turn(behind)
    },
    |outcome, left| left.answer[1] -= u64::from(refused(outcome, 11)),
    |outcome, left| left.answer[2] += u64::from(refused(outcome, 9)),
];

/// The same of levels, 14 for 15, 16 at another place, and a byte too few.
const OF_LEVELS: [Fault; 5] = [
    |outcome, left| turn(outcome.as_ref().ok().and_then(|tree| left.output[..tree.len()].last_mut())),
    |outcome, left| left.answer[1] -= u64::from(refused(outcome, 15)),
    |outcome, left| left.answer[2] ^= u64::from(refused(outcome, 16)),
    |outcome, left| left.answer[3] ^= u64::from(refused(outcome, 14)),
    |outcome, left| left.answer[1] -= u64::from(outcome.as_ref().is_ok_and(|tree| tree.len() == left.output.len() && !tree.is_empty())),
];

/// The same of macros, 17 for 19, 18 and 17 at other places, 20 for 21.
const OF_MACROS: [Fault; 6] = [
    |outcome, left| turn(outcome.as_ref().ok().and_then(|tree| left.output[..tree.len()].last_mut())),
    |outcome, left| left.answer[1] -= 2 * u64::from(refused(outcome, 19)),
    |outcome, left| left.answer[2] ^= u64::from(refused(outcome, 18)),
    |outcome, left| left.answer[3] ^= u64::from(refused(outcome, 17)),
    |outcome, left| left.answer[1] -= u64::from(refused(outcome, 21)),
    |outcome, left| turn(left.work.first_mut().filter(|_| refused(outcome, 18))),
];

/// The same of the whole call: the byte behind its tree, 10 for 5, 18 at another place.
const OF_WHOLE: [Fault; 3] = [
    |outcome, left| turn(outcome.as_ref().ok().and_then(|tree| left.output.get_mut(tree.len()))),
    |outcome, left| left.answer[1] += 5 * u64::from(refused(outcome, 5)),
    |outcome, left| left.answer[3] ^= u64::from(refused(outcome, 18)),
];

fn shows(call: Call, faults: &[Fault]) {
    for (index, fault) in faults.iter().enumerate() {
        let tally = tally(call, *fault);
        assert!(tally.differences > 0, "{call:?}, fault {index}");
        assert_eq!(tally.differences.min(5), tally.told.len(), "{call:?}, fault {index}");
    }
}

#[test]
fn every_fault_shows() {
    shows(Call::Resolve, &PLAIN);
    if the_rust_is_there(OF_RESOLVING.len() + OF_LEVELS.len() + OF_MACROS.len() + OF_WHOLE.len()) {
        shows(Call::Resolve, &OF_RESOLVING);
        shows(Call::Levels, &OF_LEVELS);
        shows(Call::Macros, &OF_MACROS);
        shows(Call::Whole, &OF_WHOLE);
    }
}

/// One more than the limit.
#[test]
fn a_round_too_many_shows() {
    if !the_rust_is_there(1) {
        return;
    }
    let made = stand_in(Call::Macros, |_, _| {});
    let one_more = |tape: &[u8], limit: u16, output: &mut [u8], work: &mut [u8], answer: &mut Words| {
        made(tape, limit.saturating_add(1), output, work, answer);
    };
    let tally = run(cases(Call::Macros), 7, Ours { call: Call::Macros, made: &one_more });
    assert!(tally.differences > 0 && tally.agreed() > tally.differences);
}

/// The largest of the cases with this answer, and what it shrinks to with a fault in that answer.
fn shrunk(call: Call, number: u8, fault: Fault) -> (Case, Case) {
    let made = stand_in(call, fault);
    let number_of = |case: &Case| expected(case, call).unwrap().err().map(|refusal| refusal.number);
    let case = cases(call).filter(|case| number_of(case) == Some(number)).max_by_key(|case| case.tape.len()).unwrap();
    let least = shrink(&case, 7, Ours { call, made: &made });
    assert_eq!(number_of(&least), Some(number));
    (case, least)
}

/// A 13 told as an 8 shrinks to a macro and an item that names it: two atoms or three, 10 and 11, 10, 12 and 20.
#[test]
fn a_difference_shrinks() {
    if !the_rust_is_there(1) {
        return;
    }
    let (case, least) = shrunk(Call::Resolve, 13, |outcome, left| left.answer[1] -= 5 * u64::from(refused(outcome, 13)));
    assert!(case.tape.len() > 200 && least.tape.len() <= 80, "{} to {}", case.tape.len(), least.tape.len());
}

/// An 18 told as a 13 shrinks to an item with one call, and to no round at all.
#[test]
fn a_difference_of_macros_shrinks() {
    if !the_rust_is_there(1) {
        return;
    }
    let (case, least) = shrunk(Call::Macros, 18, |outcome, left| left.answer[1] -= 5 * u64::from(refused(outcome, 18)));
    assert!(case.tape.len() > 200 && least.tape.len() <= 120, "{} to {}", case.tape.len(), least.tape.len());
    assert_eq!(least.limit, 0);
}
