//! Tapes put to calls, one after another, counted; the first that differs is shrunk and told, and ends the program.
use crate::calls::{Exported, ALL};
use crate::lender::Lender;
use compare::case::Case;
use compare::judge::{Made, Verdict};
use compare::run::told;
use compare::shrink::shrink_while;
use compare::tally::Tally;
use std::cell::RefCell;
use std::time::{Duration, Instant};

pub struct Session {
    /// What stands for each call: the archive's, or for tests a faulty one.
    made: fn(Exported) -> Made<'static>,
    lender: RefCell<Lender>,
    tallies: [Tally; ALL.len()],
    tapes: usize,
    began: Instant,
    seed: u64,
}

impl Session {
    /// The seed fixes what stood in the buffers before.
    pub fn new(lender: Lender, seed: u64) -> Session {
        Session::over(Exported::made, lender, seed)
    }

    pub fn over(made: fn(Exported) -> Made<'static>, lender: Lender, seed: u64) -> Session {
        oracle::panics_are_answers();
        Session { made, lender: RefCell::new(lender), tallies: Default::default(), tapes: 0, began: Instant::now(), seed }
    }

    pub fn tapes(&self) -> usize {
        self.tapes
    }

    pub fn lasted(&self) -> Duration {
        self.began.elapsed()
    }

    /// One tape, put to these calls.
    pub fn put(&mut self, cases: impl IntoIterator<Item = (Exported, Case)>) {
        self.tapes += 1;
        for (call, case) in cases {
            let dirt = self.seed.wrapping_add(self.tapes as u64);
            let verdict = self.verdict(call, &case, dirt);
            self.tallies[call as usize].count(&verdict);
            if matches!(verdict, Verdict::Differs(_)) {
                self.tell(call, &case, dirt);
            }
        }
    }

    fn verdict(&self, call: Exported, case: &Case, dirt: u64) -> Verdict {
        call.verdict(case, dirt, (self.made)(call), &self.lender)
    }

    fn tell(&self, call: Exported, case: &Case, dirt: u64) -> ! {
        let least = shrink_while(case, |case| matches!(self.verdict(call, case, dirt), Verdict::Differs(_)));
        eprint!("{call:?} {}", told(&least, &self.verdict(call, &least, dirt)));
        std::process::abort();
    }

    pub fn print(&self, name: &str) {
        let agreed: usize = self.tallies.iter().map(Tally::agreed).sum();
        let different: usize = self.tallies.iter().map(|tally| tally.differences).sum();
        println!("{name}: {} tapes, {agreed} calls agreed, {different} different, {:.0} seconds", self.tapes, self.lasted().as_secs_f64());
        for (call, tally) in ALL.iter().zip(&self.tallies).filter(|(_, tally)| tally.agreed() + tally.skipped > 0) {
            println!("  {call:?}: {tally}");
        }
    }
}
