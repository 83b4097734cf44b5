//! The five exported calls, each beside what is expected of it (crate compare), in memory that a lender lends.
use crate::lender::{Buffers, Lender};
use compare::case::{Case, Room};
use compare::judge::{judge, judge_validating, Made, Ours, Verdict, LEVELS, MACROS, RESOLVE, VALIDATE, WHOLE};
use oracle::expanding::caught;
use std::cell::RefCell;
use std::panic::AssertUnwindSafe;

#[derive(Clone, Copy, Debug, PartialEq, Eq)]
pub enum Exported {
    Validate,
    Resolve,
    Levels,
    Macros,
    Whole,
}

pub const ALL: [Exported; 5] = [Exported::Validate, Exported::Resolve, Exported::Levels, Exported::Macros, Exported::Whole];

impl Exported {
    /// The call for passes; validating is none.
    fn passes(self) -> Option<Ours<'static>> {
        match self {
            Exported::Validate => None,
            Exported::Resolve => Some(RESOLVE),
            Exported::Levels => Some(LEVELS),
            Exported::Macros => Some(MACROS),
            Exported::Whole => Some(WHOLE),
        }
    }

    pub fn made(self) -> Made<'static> {
        self.passes().map_or(VALIDATE, |ours| ours.made)
    }

    /// A tape with this much room, as far as the call takes it.
    pub fn case(self, tape: Vec<u8>, limit: u16, room: Room) -> Case {
        match self {
            Exported::Validate => Case::validating(tape, room.work),
            Exported::Resolve | Exported::Levels => Case { tape, limit: 0, room },
            Exported::Macros | Exported::Whole => Case { tape, limit, room },
        }
    }

    /// A panic on the way (the Rust's passes say otherwise than its steps, bytes beside a buffer were changed) is a difference.
    pub fn verdict(self, case: &Case, dirt: u64, made: Made, lender: &RefCell<Lender>) -> Verdict {
        let lent: Made = &|tape, limit, output, work, answer| {
            lender.borrow_mut().make(made, Buffers { tape, limit, output, work, answer });
        };
        let judged = || match self.passes() {
            None => judge_validating(case, dirt, lent),
            Some(ours) => judge(case, dirt, Ours { made: lent, ..ours }),
        };
        caught(AssertUnwindSafe(judged)).unwrap_or_else(|message| Verdict::Differs(format!("panic: {message}")))
    }
}
