//! A call as document 01 answers it: 1, then 2 to 4, then the pass's questions and the sizes of its stages, in time order.
use crate::tree::{Item, Stage};
use crate::{read, Refusal};
use tape::{within_operands, write_over};

/// The tree that is written, or the refusal.
pub type Outcome = Result<Vec<u8>, Refusal>;

/// What a pass does: it finishes a stage, whose sizes are asked then, or it refuses.
#[derive(Clone, Debug, PartialEq, Eq)]
pub enum Step {
    Finished(Vec<Item>),
    Refused(Refusal),
}

pub fn work_needed(tape: usize, output: usize) -> usize {
    8 * (tape + output)
}

/// The call for name resolution alone. `resolve` answers nothing where the Rust isn't there to be asked; then there is no outcome.
pub fn call(tape: &[u8], output: usize, work: usize, resolve: impl Fn(&Stage) -> Option<Result<Stage, Refusal>>) -> Option<Outcome> {
    answer(tape, output, work, |stage| {
        Some(vec![match resolve(stage)? {
            Ok(resolved) => Step::Finished(resolved.items),
            Err(refusal) => Step::Refused(refusal),
        }])
    })
}

/// Any call, whose steps the Rust makes.
pub fn answer(tape: &[u8], output: usize, work: usize, steps: impl Fn(&Stage) -> Option<Vec<Step>>) -> Option<Outcome> {
    answer_and_stage(tape, output, work, steps).map(|(outcome, _)| outcome)
}

/// The same, and the last stage that was measured: the tree, or the one that is too long.
pub fn answer_and_stage(
    tape: &[u8],
    output: usize,
    work: usize,
    steps: impl Fn(&Stage) -> Option<Vec<Step>>,
) -> Option<(Outcome, Vec<u8>)> {
    let stage = match asked(tape, output, work) {
        Ok(stage) => stage,
        Err(refusal) => return Some((Err(refusal), vec![])),
    };
    let stages = measured(stage.atoms.clone(), &steps(&stage)?);
    let mut trees = stages.iter().flatten();
    let last = trees.clone().find(|tree| tree.len() > output).or(trees.next_back());
    Some((with_output(&stages, output), last.cloned().unwrap_or_default()))
}

/// Questions 1 to 4: the tape's tree.
pub fn asked(tape: &[u8], output: usize, work: usize) -> Result<Stage, Refusal> {
    if work < work_needed(tape.len(), output) {
        return Err(nowhere(1));
    }
    read(tape)
}

/// The tape of each stage, its atoms being the former stage's, then its new texts; in the end a refusal, if there is one: the pass's own, or 20.
pub fn measured(mut atoms: Vec<Vec<u8>>, steps: &[Step]) -> Vec<Outcome> {
    let mut stages = vec![];
    for step in steps {
        let stage = match step {
            Step::Finished(items) => Stage { atoms, items: items.clone() },
            Step::Refused(refusal) => return with(stages, Err(*refusal)),
        };
        if !within_operands(&stage) {
            return with(stages, Err(nowhere(20)));
        }
        let tree;
        (atoms, tree) = write_over(&stage);
        stages.push(Ok(tree));
    }
    stages
}

fn with(mut stages: Vec<Outcome>, last: Outcome) -> Vec<Outcome> {
    stages.push(last);
    stages
}

/// The answer that these stages come to with an output so long: 21 at the first that is longer.
pub fn with_output(stages: &[Outcome], output: usize) -> Outcome {
    let too_long = |stage: &Outcome| stage.as_ref().is_ok_and(|tree| tree.len() > output);
    match stages.iter().find(|stage| stage.is_err() || too_long(stage)) {
        Some(Err(refusal)) => Err(*refusal),
        Some(Ok(_)) => Err(nowhere(21)),
        None => stages.last().cloned().unwrap_or_else(|| Ok(vec![])),
    }
}

/// The length of each stage, as far as they are within their operands.
pub fn stage_lengths(atoms: Vec<Vec<u8>>, steps: &[Step]) -> Vec<usize> {
    measured(atoms, steps).iter().flatten().map(Vec::len).collect()
}

fn nowhere(number: u8) -> Refusal {
    Refusal { number, place: (0, 0) }
}
