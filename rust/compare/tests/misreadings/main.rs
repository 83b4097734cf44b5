//! How sharp the comparison is: name resolution, levels, and the macros of the whole call written once more, with one misreading at a time. Each must
//! show in small random trees.
use compare::case::Case;
use compare::judge::{judge, leave, Ours, Verdict};
use compare::the_rust_is_there;
use normalize::Words;
use oracle::Call;
use reading::tree::Span;
use reading::{Outcome, Refusal};
use std::fmt::Debug;

/// The misreadings of a model, each said where its name doesn't, as an enum with `Nothing`, and all but that one as `ALL`.
macro_rules! misreadings {
    ($($(#[$said:meta])* $name:ident,)*) => {
        #[derive(Clone, Copy, Debug, PartialEq, Eq)]
        enum Misreading {
            Nothing,
            $($(#[$said])* $name,)*
        }

        use Misreading::*;

        const ALL: &[Misreading] = &[$($name,)*];
    };
}

mod levels;
mod resolving;
mod whole;

fn no<T>(number: u8, span: Span) -> Result<T, Refusal> {
    Err(Refusal { number, place: (span.0.into(), span.1.into()) })
}

/// How many cases differ from the Rust where the call comes to these outcomes, up to so many. A model is asked by tape, limit, and the lengths of output and
/// work.
fn differing(cases: &[Case], call: Call, most: usize, model: impl Fn(&[u8], u16, usize, usize) -> Outcome) -> usize {
    let made = |tape: &[u8], limit: u16, output: &mut [u8], work: &mut [u8], answer: &mut Words| {
        leave(&model(tape, limit, output.len(), work.len()), tape.len(), output, work, answer);
    };
    let ours = Ours { call, made: &made };
    cases.iter().filter(|case| matches!(judge(case, 1, ours), Verdict::Differs(_))).take(most).count()
}

/// A model that misreads nothing: no case differs.
fn agrees(differing: impl Fn() -> usize) {
    if !the_rust_is_there(1) {
        return;
    }
    oracle::panics_are_answers();
    assert_eq!(differing(), 0);
}

/// Each misreading: some case differs.
fn each_shows<M: Copy + Debug>(all: &[M], cases: impl Fn() -> Vec<Case>, differing: impl Fn(&[Case], M) -> usize) {
    if !the_rust_is_there(all.len()) {
        return;
    }
    oracle::panics_are_answers();
    let cases = cases();
    for &misreading in all {
        let count = differing(&cases, misreading);
        println!("{misreading:?}: at least {count} of {}", cases.len());
        assert!(count > 0, "{misreading:?} doesn't show");
    }
}
