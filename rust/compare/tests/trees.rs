//! The calls from tree to tree make what the calls make of tapes, and their buffers grow as far as they may.
use compare::levels::{CASES, OTHERS, REFUSED};
use compare::whole::chosen;
use normalize::{levels, macros, resolve, trees, whole, work_len};
use reading::tree::{Item, Span, Stage};
use reading::{parse, read, read_made, write, Refusal};

const LONGEST: usize = 9_999;

/// What a call makes of a tree's tape, with an output of so many bytes.
fn made(stage: &Stage, output: usize, call: impl Fn(&[u8], &mut [u8], &mut [u8]) -> Result<usize, Refusal>) -> Result<Stage, Refusal> {
    let tape = write(stage);
    let (mut output, mut work) = (vec![0; output], vec![0; work_len(tape.len(), output)]);
    let length = call(&tape, &mut output, &mut work)?;
    Ok(read_made(&output[..length]).expect("a tree that can be read"))
}

/// The chosen grammars of all three passes and of levels.
fn grammars() -> impl Iterator<Item = Stage> {
    let of_levels = CASES.iter().chain(&OTHERS).map(|case| case.stage());
    chosen().filter_map(|tape| read(&tape).ok()).chain(of_levels).chain(REFUSED.iter().map(|case| case.stage()))
}

#[test]
fn each_call_makes_what_it_makes_of_the_tape() {
    let (mut accepted, mut refused) = (0, 0);
    for stage in grammars() {
        for limit in [0, 1, 64] {
            let pairs = [
                (trees::resolve(&stage), made(&stage, LONGEST, |t, o, w| resolve(t, o, w))),
                (trees::levels(&stage, LONGEST), made(&stage, LONGEST, |t, o, w| levels(t, o, w))),
                (trees::macros(&stage, limit, LONGEST), made(&stage, LONGEST, |t, o, w| macros(t, limit, o, w))),
                (trees::whole(&stage, limit, LONGEST), made(&stage, LONGEST, |t, o, w| whole(t, limit, o, w))),
            ];
            for (from_the_tree, from_the_tape) in pairs {
                assert_eq!(from_the_tree, from_the_tape);
                if from_the_tape.is_ok() {
                    accepted += 1
                } else {
                    refused += 1
                }
            }
        }
    }
    assert!(accepted > 500 && refused > 200, "{accepted} accepted, {refused} refused");
}

/// An output of just the longest stage's length is found, one of a byte less is refused.
#[test]
fn the_output_grows_to_the_byte() {
    let stage = parse(r#"pub L = n*; extern { enum T { n => N } }"#);
    let fits = |output: &usize| made(&stage, *output, |t, o, w| whole(t, 64, o, w)).is_ok();
    let least = (0..LONGEST).find(fits).expect("an output that is long enough");
    assert!(least > 2 * write(&stage).len(), "it grows twice");
    assert_eq!(trees::whole(&stage, 64, least), made(&stage, least, |t, o, w| whole(t, 64, o, w)));
    assert_eq!(trees::whole(&stage, 64, least - 1), Err(Refusal { number: 21, place: (0, 0) }));
}

/// A tree that no tape carries is refused with 20, whatever else is wrong with it.
#[test]
fn a_tree_that_no_tape_carries_is_refused() {
    let long = Item::Extern(Span(7, 8), "n".repeat(65_536));
    let stage = Stage::new([long.clone(), long]);
    let no = Err(Refusal { number: 20, place: (0, 0) });
    assert_eq!(
        [trees::resolve(&stage), trees::levels(&stage, LONGEST), trees::macros(&stage, 1, LONGEST), trees::whole(&stage, 1, LONGEST)],
        [no.clone(), no.clone(), no.clone(), no]
    );
}
