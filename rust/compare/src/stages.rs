//! The Rust's stages of a call, as far as they decide its answer.
use oracle::{staged, Call};
use reading::tree::Stage;
use reading::{measured, with_output, Outcome, Step};
use std::cell::RefCell;

/// What the Rust was asked last: the cases of one tape follow each other.
struct Asked {
    stage: Stage,
    call: Call,
    limit: u16,
    /// The longest output that the steps decide.
    longest: usize,
    steps: Vec<Step>,
    /// The steps' stages as tapes.
    stages: Vec<Outcome>,
}

thread_local! {
    static LAST: RefCell<Option<Asked>> = const { RefCell::new(None) };
}

/// The steps, at least up to the first stage that is beyond its operands or longer than `longest`.
pub fn deciding(stage: &Stage, call: Call, limit: u16, longest: usize) -> Option<Vec<Step>> {
    with_last(stage, call, limit, longest, |asked| asked.steps.clone())
}

/// The answer with an output so long, and how many rounds of macros are over where it comes.
pub fn decided(stage: &Stage, call: Call, limit: u16, output: usize) -> Option<(Outcome, usize)> {
    // the resolved stage, of the whole call the levelled one too, then two for each round
    let before = if call == Call::Whole { 2 } else { 1 };
    with_last(stage, call, limit, output, |asked| {
        let rounds = fitting(&asked.stages, output).saturating_sub(before) / 2;
        (with_output(&asked.stages, output), rounds)
    })
}

/// The lengths of the stages, as far as they are within their operands; those over `longest` may be missing.
pub fn lengths(stage: &Stage, call: Call, limit: u16, longest: usize) -> Option<Vec<usize>> {
    with_last(stage, call, limit, longest, |asked| asked.stages.iter().flatten().map(Vec::len).collect())
}

fn with_last<T>(stage: &Stage, call: Call, limit: u16, longest: usize, look: impl Fn(&Asked) -> T) -> Option<T> {
    LAST.with_borrow_mut(|last| {
        let same = |asked: &Asked| asked.call == call && asked.limit == limit && asked.longest >= longest && asked.stage == *stage;
        if !last.as_ref().is_some_and(same) {
            *last = Some(ask(stage, call, limit, longest)?);
        }
        last.as_ref().map(look)
    })
}

/// A macro that calls itself twice doubles in each round, so the Rust is given few rounds first, and a high limit only where these are enough.
fn ask(stage: &Stage, call: Call, limit: u16, longest: usize) -> Option<Asked> {
    let mut rounds: u16 = 3.min(limit);
    loop {
        let steps = staged(stage, call, rounds)?;
        let stages = measured(stage.atoms.clone(), &steps);
        let is_outgrown = fitting(&stages, longest) < finished(&steps);
        if rounds == limit || is_outgrown {
            let longest = if rounds == limit { usize::MAX } else { longest };
            return Some(Asked { stage: stage.clone(), call, limit, longest, steps, stages });
        }
        let is_over = matches!(steps.last(), Some(Step::Refused(refusal)) if refusal.number == 18);
        rounds = if is_over { rounds.saturating_add(1 + rounds / 3).min(limit) } else { limit };
    }
}

fn finished(steps: &[Step]) -> usize {
    steps.iter().filter(|step| matches!(step, Step::Finished(_))).count()
}

/// The stages before the first that is too large.
fn fitting(stages: &[Outcome], longest: usize) -> usize {
    stages.iter().take_while(|stage| stage.as_ref().is_ok_and(|tree| tree.len() <= longest)).count()
}
