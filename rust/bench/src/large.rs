//! Large tapes: the nanoseconds that a byte takes, and how many times as long it takes at 4 MiB as at 64 KiB. Work is fresh, as the system lends it: zero,
//! and without a page for what nobody wrote; or used, with every page there.
use crate::measure::{copying, least_of, median, resolving, so_many_turns, timed, validating, Run};
use crate::subject::Subject;
use crate::tapes;
use std::hint::black_box;

const MOST_GROWTH: f64 = 1.5;
const TURNS: usize = 51;
const SMALL: usize = 64 << 10;
const LARGE: usize = 4 << 20;

/// A call with this work, and the work that it needs.
type Call<'a> = (fn(&'a Subject, Vec<u8>) -> Run<'a>, fn(&Subject) -> Vec<u8>);

/// Prints the table, and says whether a byte of a large tape takes at most half as long again.
pub fn tell() -> bool {
    println!("\nNanoseconds for each byte of the tape, the least of several runs; work is fresh where it isn't said to be used.\n");
    println!("| tape | bytes | validating | resolving | validating, used | of it clearing | resolving, used | of it clearing | copying and clearing |");
    println!("|---|---|---|---|---|---|---|---|---|");
    for size in [4 << 10, SMALL, 1 << 20, LARGE] {
        line("symbols", tapes::symbols(size));
    }
    line("65,536 atoms", tapes::atoms(65_536));
    line("60,000 items", tapes::items(60_000, 0));
    line("2,000 macros of 100 arguments", tapes::items(2_000, 100));
    let [small, large] = [SMALL, LARGE].map(|size| Subject::of_tape(tapes::symbols(size)));
    let both = [(validating as _, Subject::work_of_validating as _), (resolving as _, Subject::work_of_resolving as _)];
    let of = |measure: for<'a> fn(&'a Subject, &'a Subject, Call<'a>) -> f64| both.map(|call| measure(&small, &large, call));
    let [calls, rests] = [of(whole), of(|small, large, call| rest(small, large, call, fresh))];
    let is_linear = calls.iter().chain(&rests).all(|growth| *growth <= MOST_GROWTH);
    let end = if is_linear { "no more than" } else { "and that is more than" };
    let told = |[validating, resolving]: [f64; 2]| format!("validating {validating:.2}, resolving {resolving:.2}");
    println!("\nA byte at 4 MiB, against 64 KiB: {}; all but the clearing: {}: {end} {MOST_GROWTH}.", told(calls), told(rests));
    println!("With used work, all but the clearing: {}.", told(of(|small, large, call| rest(small, large, call, used))));
    is_linear
}

/// One line.
fn line(name: &str, tape: Vec<u8>) {
    let bytes = tape.len();
    let runs = (32_000_000 / bytes).clamp(25, 1_000);
    let subject = Subject::of_tape(tape);
    let of = |run: Run| format!("{:.2}", least_of(run, runs) / bytes as f64);
    let (little, much) = (|| subject.work_of_validating(), || subject.work_of_resolving());
    let figures = [
        of(validating(&subject, fresh(little()))),
        of(resolving(&subject, fresh(much()))),
        of(validating(&subject, used(little()))),
        of(clearing(used(little()))),
        of(resolving(&subject, used(much()))),
        of(clearing(used(much()))),
        of(copying(&subject, &subject.tape)),
    ];
    println!("| {name} | {bytes} | {} |", figures.join(" | "));
}

/// More than the C library ever takes of memory that was used before.
const OF_THE_SYSTEM: usize = 40 << 20;

/// As much, as the system lends it.
fn fresh(work: Vec<u8>) -> Vec<u8> {
    let mut fresh = vec![0; work.len().max(OF_THE_SYSTEM)];
    fresh.truncate(work.len());
    fresh
}

/// With every page there.
fn used(mut work: Vec<u8>) -> Vec<u8> {
    black_box(&mut work).fill(1);
    black_box(&mut work).fill(0);
    work
}

/// Clearing alone: the call for validating, of an empty tape, clears all the work that it is lent.
fn clearing<'a>(mut work: Vec<u8>) -> Run<'a> {
    Box::new(move |times| timed(times, || assert_eq!(normalize::validate(&[], &mut work), Ok(0))))
}

/// How many times as long a byte of the large tape takes, with fresh work: the median of interleaved turns.
fn whole<'a>(small: &'a Subject, large: &'a Subject, (call, work): Call<'a>) -> f64 {
    growth([small, large], vec![call(small, fresh(work(small))), call(large, fresh(work(large)))], |turn| turn[1] / turn[0])
}

/// The same of all but the clearing, with work that is made so.
fn rest<'a>(small: &'a Subject, large: &'a Subject, (call, work): Call<'a>, so: fn(Vec<u8>) -> Vec<u8>) -> f64 {
    let runs = [small, large].into_iter().flat_map(|it| [call(it, so(work(it))), clearing(so(work(it)))]).collect();
    growth([small, small, large, large], runs, |turn| (turn[2] - turn[3]) / (turn[0] - turn[1]))
}

/// The median, over the turns, of what is made of the nanoseconds for a byte of each run's tape.
fn growth<const N: usize>(tapes: [&Subject; N], runs: Vec<Run>, made: fn([f64; N]) -> f64) -> f64 {
    let turns = so_many_turns(TURNS, runs, 1);
    let of_turn = |turn: usize| std::array::from_fn(|k| turns[k][turn] / tapes[k].tape.len() as f64);
    median((0..TURNS).map(|turn| made(of_turn(turn))).collect())
}
