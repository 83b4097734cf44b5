//! A second reading of document 01, written from the document, over the tape's reader, writer and sizes of rust/tape: the calls, the listing, and where
//! levels are refused. What else the passes answer is LALRPOP's to say.
mod call;
pub mod commands;
mod display;
mod levels;

pub use call::{answer, answer_and_stage, asked, call, measured, stage_lengths, with_output, work_needed, Outcome, Step};
pub use display::{listing, printed};
pub use levels::level_refusal;
pub use tape::{operand_bytes, read, read_made, tree, within_operands, write, write_over, Refusal};

/// The tree of a test's grammar: items in LALRPOP's notation, without the `grammar` line before them. Spans are places in the text.
pub fn parse(items: &str) -> tree::Stage {
    tape::lalrpop::parse_items(items).unwrap_or_else(|no| panic!("{no}\n{items}"))
}

#[cfg(test)]
mod tests;
