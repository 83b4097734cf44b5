//! A call: its tape, its limit, the lengths of its buffers, and what document 01 says of it.
use oracle::{staged, Call};
use reading::{answer_and_stage, read, stage_lengths, Outcome};

pub struct Case {
    pub tape: Vec<u8>,
    pub call: Call,
    pub limit: u16,
    pub output: usize,
    pub work: usize,
    pub outcome: Outcome,
    /// The last stage that was measured.
    pub stage: Vec<u8>,
}

impl Case {
    /// LALRPOP's own code makes the stages.
    pub fn new(tape: &[u8], call: Call, limit: u16, output: usize, work: usize) -> Case {
        let (outcome, stage) = answer_and_stage(tape, output, work, |stage| staged(stage, call, limit)).expect("the Rust is there");
        Case { tape: tape.to_vec(), call, limit, output, work, outcome, stage }
    }
}

/// How long each stage of a call is, as far as it comes.
pub fn lengths(tape: &[u8], call: Call, limit: u16) -> Vec<usize> {
    let Ok(stage) = read(tape) else { return vec![] };
    stage_lengths(stage.atoms.clone(), &staged(&stage, call, limit).expect("the Rust is there"))
}
