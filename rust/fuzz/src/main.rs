//! `fuzz random SECONDS SEED [heap]`: random tapes, and damaged ones, put to the exported calls in guarded memory; with `heap` in blocks of the heap,
//! for valgrind. `fuzz every [FROM TO]`: every one-byte change and every cut of ten rich tapes, or of those from one number up to another.
//! `fuzz stack SEED COUNT`: the stack that each call takes, on tapes at the limits and so many random ones. `fuzz guided SECONDS SEED FOLDER`,
//! where it is built with libFuzzer: inputs that it makes. `fuzz planted BUFFER front|end read|write [heap]`, `.. answer`: faults for the tests.
//! Exit status: 0 all agreed, 2 bad usage; a difference is told and ends the program by a signal, and so does a fault.
#![deny(unsafe_code)]

mod calls;
mod every;
#[cfg(guided)]
mod guided;
mod lender;
mod planted;
mod random;
mod session;
mod stack;
#[allow(unsafe_code)]
mod system;

use lender::Lender;
use session::Session;
use std::time::Duration;

fn main() {
    let words: Vec<String> = std::env::args().skip(1).collect();
    let words: Vec<&str> = words.iter().map(String::as_str).collect();
    let done = match words.split_first() {
        Some((&"random", rest)) => random(rest),
        Some((&"every", rest)) => every(rest),
        Some((&"stack", [seed, count])) => stack(seed, count),
        #[cfg(guided)]
        Some((&"guided", [seconds, seed, folder])) => guided(seconds, seed, folder),
        Some((&"planted", rest)) => planted(rest),
        _ => None,
    };
    if done.is_none() {
        eprintln!(
            "usage: fuzz random SECONDS SEED [heap] | every [FROM TO] | stack SEED COUNT | guided SECONDS SEED FOLDER (with libFuzzer)"
        );
        std::process::exit(2);
    }
}

fn random(words: &[&str]) -> Option<()> {
    let ([seconds, seed], heap) = words.split_at_checked(2)? else { return None };
    let lender = lender(heap)?;
    let (seconds, seed) = (seconds.parse().ok()?, seed.parse().ok()?);
    system::fault::watch();
    let mut session = Session::new(lender, seed);
    let different = random::run(&mut session, seed, Duration::from_secs(seconds));
    session.print(&format!("random ({different} different ones)"));
    Some(())
}

fn lender(words: &[&str]) -> Option<Lender> {
    match words {
        [] => Some(Lender::of_pages()),
        ["heap"] => Some(Lender::Heap),
        _ => None,
    }
}

fn every(words: &[&str]) -> Option<()> {
    let count = every::tapes().len();
    let (from, to) = match words {
        [] => (0, count),
        [from, to] => (from.parse().ok()?, to.parse().ok()?),
        _ => return None,
    };
    if from > to || to > count {
        return None;
    }
    system::fault::watch();
    let mut session = Session::new(Lender::of_pages(), 1);
    every::run(&mut session, from, to);
    session.print("every change and cut");
    Some(())
}

fn stack(seed: &str, count: &str) -> Option<()> {
    stack::run(seed.parse().ok()?, count.parse().ok()?);
    Some(())
}

#[cfg(guided)]
fn guided(seconds: &str, seed: &str, folder: &str) -> Option<()> {
    guided::run(seconds.parse().ok()?, seed.parse().ok()?, folder.as_ref())
}

fn planted(words: &[&str]) -> Option<()> {
    system::fault::watch();
    if words == ["answer"] {
        planted::other_answer();
        return Some(());
    }
    let (fault, heap) = words.split_at_checked(3)?;
    planted::run(fault, lender(heap)?)
}
