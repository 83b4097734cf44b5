//! What the random trees for levels and for the whole call reach, so that nothing is left out of the comparison unseen.
mod levels;
mod whole;

use oracle::{staged, Call};
use reading::tree::{Item, Stage};
use reading::{read, Step};
use std::collections::BTreeMap;

/// How often each thing was seen.
#[derive(Default)]
struct Seen(BTreeMap<String, usize>);

impl Seen {
    fn see(&mut self, what: impl Into<String>, is_there: bool) {
        *self.0.entry(what.into()).or_default() += usize::from(is_there);
    }

    /// More than so many things were looked for, and each was seen.
    fn all(&self, least: usize) {
        self.0.iter().for_each(|(what, count)| println!("{count:6} {what}"));
        let missing: Vec<&String> = self.0.iter().filter(|(_, count)| **count == 0).map(|(what, _)| what).collect();
        assert!(missing.is_empty() && self.0.len() > least, "not reached: {missing:?}");
    }
}

/// The Rust's steps; none where the tape is refused.
fn steps(tape: &[u8], stage: &Stage, call: Call, limit: u16) -> Vec<Step> {
    if read(tape).is_ok() {
        staged(stage, call, limit).unwrap()
    } else {
        vec![]
    }
}

fn finished(step: Option<&Step>) -> Option<&[Item]> {
    match step {
        Some(Step::Finished(items)) => Some(items),
        _ => None,
    }
}
