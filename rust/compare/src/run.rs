//! Many cases, one after another: each judged and counted, the first that differ shrunk and told.
use crate::case::Case;
use crate::judge::{judge, Ours, Verdict};
use crate::shrink::shrink;
use crate::tally::Tally;
use reading::commands::{hex, shown};

const TOLD: usize = 5;

pub fn run(cases: impl Iterator<Item = Case>, seed: u64, ours: Ours) -> Tally {
    let mut tally = Tally::default();
    for (index, case) in cases.enumerate() {
        let dirt = seed.wrapping_add(index as u64);
        let verdict = judge(&case, dirt, ours);
        tally.count(&verdict);
        if matches!(verdict, Verdict::Differs(_)) && tally.told.len() < TOLD {
            let least = shrink(&case, dirt, ours);
            tally.told.push(told(&least, &judge(&least, dirt, ours)));
        }
    }
    tally
}

/// The case, its difference, and its tape in hex and as commands.
pub fn told(case: &Case, verdict: &Verdict) -> String {
    let Verdict::Differs(text) = verdict else { unreachable!("only cases that differ are told") };
    let (limit, output, work) = (case.limit, case.output_len(), case.work_len());
    format!("differs: {text}\n  {} l{limit} o{output} w{work}\n{}", hex(&case.tape), shown(&case.tape))
}

/// A comparison in parts: each is printed as it ends, and all are counted together.
pub struct Parts<'a> {
    ours: Ours<'a>,
    seed: u64,
    total: Tally,
}

impl<'a> Parts<'a> {
    pub fn new(ours: Ours<'a>, seed: u64) -> Parts<'a> {
        Parts { ours, seed, total: Tally::default() }
    }

    pub fn part(&mut self, name: &str, cases: impl Iterator<Item = Case>) {
        let tally = run(cases, self.seed, self.ours);
        println!("{:?}, {name}: {tally}", self.ours.call);
        for told in &tally.told {
            print!("{told}");
        }
        self.total.add(tally);
    }

    /// Prints the sum.
    pub fn end(self) -> Tally {
        println!("{:?}, all: {}", self.ours.call, self.total);
        self.total
    }
}
