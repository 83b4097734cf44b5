//! Time: turns one after the other, each long enough to be read from a clock, and their medians.
use crate::clock::took;
use crate::subject::{Expand, Subject};
use oracle::Ready;
use std::hint::black_box;
use std::time::Duration;

/// What is aimed at: LALRPOP's time, so many times ours.
pub const AIM: f64 = 5.0;
pub const TURNS: usize = 15;
const TURN: Duration = Duration::from_millis(5);

/// Something that can be done so many times over, and tells how long that took.
pub type Run<'a> = Box<dyn FnMut(u32) -> Duration + 'a>;

/// Nanoseconds for each byte of the tape.
pub struct Figures {
    pub validating: f64,
    pub resolving: f64,
    pub copying: f64,
    /// LALRPOP's, and theirs over ours.
    pub theirs: Option<(f64, f64)>,
}

/// The medians of the turns: validating, resolving, copying, LALRPOP's, and again. The tree is what the tape becomes.
pub fn figures(subject: &Subject, tree: &[u8]) -> Figures {
    let mut runs =
        vec![validating(subject, subject.work_of_validating()), resolving(subject, subject.work_of_resolving()), copying(subject, tree)];
    runs.extend(subject.ready.as_ref().map(|ready| theirs(ready, subject.tape.len(), Ready::resolved)));
    let turns = turns(runs, subject.tape.len());
    let ratios = |theirs: &Vec<f64>| theirs.iter().zip(&turns[1]).map(|(theirs, ours)| theirs / ours).collect();
    let theirs = turns.get(3).map(|theirs| (median(theirs.clone()), median(ratios(theirs))));
    let [validating, resolving, copying] = [0, 1, 2].map(|k| median(turns[k].clone()));
    Figures { validating, resolving, copying, theirs }
}

/// Nanoseconds for each of so many bytes, turn by turn, of each run.
pub fn turns(runs: Vec<Run>, bytes: usize) -> Vec<Vec<f64>> {
    so_many_turns(TURNS, runs, bytes)
}

/// The same in so many turns.
pub fn so_many_turns(count: usize, mut runs: Vec<Run>, bytes: usize) -> Vec<Vec<f64>> {
    let counts: Vec<u32> = runs.iter_mut().map(times_for_a_turn).collect();
    let mut turns: Vec<Vec<f64>> = vec![vec![]; runs.len()];
    for _ in 0..count {
        for (k, run) in runs.iter_mut().enumerate() {
            let nanoseconds = run(counts[k]).as_nanos() as f64 / f64::from(counts[k]);
            turns[k].push(nanoseconds / bytes as f64);
        }
    }
    turns
}

/// How often it must be done for a turn.
fn times_for_a_turn(run: &mut Run) -> u32 {
    let mut times = 1;
    while run(times) < TURN {
        times *= 2;
    }
    times
}

pub fn median(mut figures: Vec<f64>) -> f64 {
    figures.sort_by(f64::total_cmp);
    figures[figures.len() / 2]
}

pub fn timed(times: u32, mut once: impl FnMut()) -> Duration {
    took(|| (0..times).for_each(|_| once())).0
}

pub fn validating(subject: &Subject, mut work: Vec<u8>) -> Run<'_> {
    Box::new(move |times| timed(times, || subject.validate(&mut work)))
}

pub fn resolving(subject: &Subject, mut work: Vec<u8>) -> Run<'_> {
    let mut output = subject.output();
    Box::new(move |times| timed(times, || subject.resolve(&mut output, &mut work)))
}

pub fn levelling(subject: &Subject) -> Run<'_> {
    let (mut output, mut work) = (subject.output_of_levels(), subject.work_of_levels());
    Box::new(move |times| timed(times, || subject.levels(&mut output, &mut work)))
}

/// Our call for macros or for the whole, with buffers just long enough.
pub fn expanding(subject: &Subject, call: Expand) -> Run<'_> {
    let mut output = subject.output_of(call);
    let mut work = vec![0; normalize::work_len(subject.tape.len(), output.len())];
    Box::new(move |times| timed(times, || assert!(subject.expanded(call, &mut output, &mut work) > 0)))
}

/// Copying the tape and the tree, and clearing as much work as resolving clears.
pub fn copying<'a>(subject: &'a Subject, tree: &'a [u8]) -> Run<'a> {
    let (mut copy, mut output, mut work) = (subject.output(), subject.output(), subject.work_of_resolving());
    Box::new(move |times| {
        timed(times, || {
            black_box(&mut copy).copy_from_slice(black_box(&subject.tape));
            black_box(&mut output).copy_from_slice(black_box(tree));
            black_box(&mut work).fill(0);
        })
    })
}

/// How many bytes of tapes go with the trees that are copied for LALRPOP at once: so few that they stay in a cache.
const AT_ONCE: usize = 8_192;

/// LALRPOP's own, on copies just made of the tree of a tape so long; neither making them nor dropping the answers is counted.
pub fn theirs<'a>(ready: &'a Ready, tape: usize, pass: fn(Ready) -> Option<Ready>) -> Run<'a> {
    let most = AT_ONCE / tape + 1;
    Box::new(move |times| {
        let (mut left, mut sum) = (times as usize, Duration::ZERO);
        while left > 0 {
            let inputs = vec![ready.clone(); most.min(left)];
            left -= inputs.len();
            let mut answers = Vec::with_capacity(inputs.len());
            let (time, ()) = took(|| answers.extend(inputs.into_iter().map(pass)));
            assert!(black_box(answers).iter().all(Option::is_some));
            sum += time;
        }
        sum
    })
}

/// The least nanoseconds of so many runs.
pub fn least_of(mut run: Run, runs: usize) -> f64 {
    (0..runs).map(|_| run(1).as_nanos() as f64).fold(f64::INFINITY, f64::min)
}
