//! Calls with a planted fault, for the tests: the byte behind a buffer or in front of it is read or written, or the answer is another.
use crate::calls::Exported;
use crate::lender::Lender;
use crate::random;
use crate::session::Session;
use crate::system::pages::touch;
use compare::case::Case;
use compare::judge::{Made, Verdict};
use std::cell::RefCell;
use std::time::Duration;

/// An atom, then an unknown command: 2, for which the Rust needn't be asked.
const TAPE: [u8; 5] = [0x01, 1, 0, b'A', 0xff];
/// So that each edge of a buffer comes to lie at a page without access.
const CALLS: u64 = 8;

/// Random tapes for the faulty call.
pub fn other_answer() {
    random::run(&mut Session::over(faulty, Lender::of_pages(), 1), 1, Duration::from_secs(20));
    println!("nothing noticed");
}

/// Macros answers 17 for 18, the others are as they are.
fn faulty(call: Exported) -> Made<'static> {
    match call {
        Exported::Macros => &|tape, limit, output, work, answer| {
            normalize::macros_words(tape, limit, output, work, answer);
            answer[1] -= u64::from(answer[..2] == [0, 18]);
        },
        other => other.made(),
    }
}

/// Whether the words name a fault; where nothing is noticed, this is said and all is well.
pub fn run(words: &[&str], lender: Lender) -> Option<()> {
    let [buffer @ ("tape" | "output" | "work" | "answer" | "none"), edge @ ("front" | "end"), access @ ("read" | "write")] = words else {
        return None;
    };
    let made: Made = &|tape, limit, output, work, answer| {
        Exported::Whole.made()(tape, limit, output, work, answer);
        let (first, length) = match *buffer {
            "tape" => (tape.as_ptr(), tape.len()),
            "output" => (output.as_ptr(), output.len()),
            "work" => (work.as_ptr(), work.len()),
            "answer" => (answer.as_ptr().cast(), size_of_val(answer)),
            _ => return,
        };
        touch(first, if *edge == "end" { length as isize } else { -1 }, *access == "write");
    };
    let lender = RefCell::new(lender);
    for dirt in 0..CALLS {
        if let Verdict::Differs(text) = Exported::Whole.verdict(&Case::expanding(TAPE.to_vec(), 1), dirt, made, &lender) {
            eprintln!("noticed: {text}");
            std::process::exit(1);
        }
    }
    println!("nothing noticed");
    Some(())
}
