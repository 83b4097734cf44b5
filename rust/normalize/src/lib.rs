//! Safe functions over `libexports.a`: a tape, an output and a work buffer in; the tree's length, or a refusal, out.
#![deny(unsafe_code)]
#![warn(missing_docs)]

mod archive;
mod grown;
pub mod trees;

pub use archive::{levels_words, macros_words, resolve_words, validate_words, whole_words, Words, WORDS};
pub use grown::grown;
pub use tape::{Place, Refusal};

/// README's examples are compiled and run.
#[cfg(doctest)]
#[doc = include_str!("../../../README.md")]
struct Readme;

/// The length of work that a call asks for, a tape and an output being so long. Where that is no `usize`, no buffer is long enough, and
/// the most that there is stands for it.
///
/// ```
/// assert_eq!(normalize::work_len(3, 4), 56);
/// assert_eq!(normalize::work_len(usize::MAX, 0), usize::MAX);
/// ```
pub fn work_len(tape: usize, output: usize) -> usize {
    tape.saturating_add(output).saturating_mul(8)
}

/// Questions 1 to 4 alone. `Ok` gives the tape's length.
///
/// ```
/// use normalize::{validate, work_len, Place};
///
/// // the atom n and the extern terminal n, then a command that there is none
/// let tape = [0x01, 1, 0, b'n', 0x30, 0, 0, 0, 0, 1, 0, 0, 0, 0, 0, 0xff];
/// let mut work = vec![0; work_len(tape.len(), 0)];
/// assert_eq!(validate(&tape[..15], &mut work), Ok(15));
/// let refusal = validate(&tape, &mut work).unwrap_err();
/// assert_eq!((refusal.number, refusal.at()), (2, Place::Offset(15)));
/// ```
pub fn validate(tape: &[u8], work: &mut [u8]) -> Result<usize, Refusal> {
    let mut answer = Words::default();
    validate_words(tape, work, &mut answer);
    answered(&answer)
}

/// Name resolution alone: questions 1 to 13, 20 and 21. At `Ok` the output begins with the tree, which has that length.
///
/// ```
/// use normalize::{resolve, work_len, Place};
///
/// let tape = tape::write(&tape::lalrpop::parse("grammar; A = B; B = \"b\";").unwrap());
/// let (mut output, mut work) = (vec![0; tape.len()], vec![0; work_len(tape.len(), tape.len())]);
/// assert_eq!(resolve(&tape, &mut output, &mut work), Ok(tape.len()));
/// // one byte has changed: the name B, which was a 20, is a nonterminal, a 24
/// let changed: Vec<_> = tape.iter().zip(&output).filter(|(old, new)| old != new).collect();
/// assert_eq!(changed, [(&0x20, &0x24)]);
///
/// let tape = tape::write(&tape::lalrpop::parse("grammar; A = C;").unwrap());
/// let refusal = resolve(&tape, &mut output, &mut work).unwrap_err();
/// assert_eq!((refusal.number, refusal.at()), (8, Place::Span(13, 14)));
/// ```
pub fn resolve(tape: &[u8], output: &mut [u8], work: &mut [u8]) -> Result<usize, Refusal> {
    let mut answer = Words::default();
    resolve_words(tape, output, work, &mut answer);
    answered(&answer)
}

/// Name resolution, then precedence levels: questions 1 to 16, 20 and 21. At `Ok` the output begins with the tree, which has that length.
///
/// The tree may be longer than the tape, and an output that is too short for it is refused with 21, as is one that can't hold the tape itself.
///
/// ```
/// use normalize::{levels, work_len, Refusal};
///
/// /// The atoms E, precedence, l, 1, 2, n, and an item E at 0 to 9: "n" at level 1, then "n" at the level that the atom says.
/// fn two_levels(level: u8) -> Vec<u8> {
///     let texts: [&[u8]; 6] = [b"E", b"precedence", b"l", b"1", b"2", b"n"];
///     let mut tape: Vec<u8> = texts.iter().flat_map(|text| [&[0x01, text.len() as u8, 0][..], text].concat()).collect();
///     tape.extend([0x10, 0, 0, 0, 0, 9, 0, 0, 0, 0, 0, 0, 0, 2, 0]);
///     for (span, level) in [(1, 3), (2, level)] {
///         tape.extend([0x12, span, 0, 0, 0, span, 0, 0, 0, 1, 0, 0, 0, 0, 1, 0]);
///         tape.extend([0x13, 1, 0, 1, 2, 0, level, 0]);
///         tape.extend([0x22, span, 0, 0, 0, span, 0, 0, 0, 5, 0]);
///     }
///     tape
/// }
///
/// let (tape, mut output) = (two_levels(4), [0; 200]);
/// let mut work = vec![0; work_len(tape.len(), output.len())];
/// // a new atom E1; the item E1; the item E, whose last alternative falls through to E1; no attributes
/// assert_eq!(levels(&tape, &mut output, &mut work), Ok(tape.len() + 5 + 15 + 27 - 2 * 8));
/// // the level `n` is no number: 14 at the second alternative
/// assert_eq!(levels(&two_levels(5), &mut output, &mut work), Err(Refusal { number: 14, place: (2, 2) }));
/// ```
pub fn levels(tape: &[u8], output: &mut [u8], work: &mut [u8]) -> Result<usize, Refusal> {
    let mut answer = Words::default();
    levels_words(tape, output, work, &mut answer);
    answered(&answer)
}

/// Name resolution, then macros, without levels: questions 1 to 13, then 17 to 21 in at most `limit` rounds. At `Ok` the output begins with the
/// tree, which has that length.
///
/// Each stage of each round must fit in the output, so that a macro that calls itself for ever is refused with 18 or 21, whatever the limit.
///
/// ```
/// use normalize::{macros, work_len, Refusal};
///
/// // the atoms L and n; L at 0 to 9, whose alternative is `n?`, at 4 to 6; the extern terminal n
/// let tape = [
///     &[0x01, 1, 0, b'L', 0x01, 1, 0, b'n'][..],
///     &[0x10, 0, 0, 0, 0, 9, 0, 0, 0, 0, 0, 0, 0, 1, 0],
///     &[0x12, 4, 0, 0, 0, 6, 0, 0, 0, 0, 0, 0, 0, 0, 1, 0],
///     &[0x26, 4, 0, 0, 0, 6, 0, 0, 0, 2, 0x20, 4, 0, 0, 0, 5, 0, 0, 0, 1, 0],
///     &[0x30, 7, 0, 0, 0, 8, 0, 0, 0, 1, 0],
/// ]
/// .concat();
/// let mut output = [0; 200];
/// let mut work = vec![0; work_len(tape.len(), output.len())];
/// // a nonterminal in place of the repeat; new atoms `n?`, `Some(<>)`, `None`; the item `n?`: the terminal n, or nothing
/// let (atoms, item) = (5 + 11 + 7, 15 + (16 + 11) + 16);
/// assert_eq!(macros(&tape, 1, &mut output, &mut work), Ok(tape.len() - 10 + atoms + item));
/// // without a round there is no such item
/// assert_eq!(macros(&tape, 0, &mut output, &mut work), Err(Refusal { number: 18, place: (4, 6) }));
/// ```
pub fn macros(tape: &[u8], limit: u16, output: &mut [u8], work: &mut [u8]) -> Result<usize, Refusal> {
    let mut answer = Words::default();
    macros_words(tape, limit, output, work, &mut answer);
    answered(&answer)
}

/// All three passes, as `expand_macros` over `expand_precedence`: name resolution, precedence levels, name resolution once more, then macros in at
/// most `limit` rounds: questions 1 to 21. At `Ok` the output begins with the tree, which has that length.
///
/// Each stage must fit in the output: the resolved tree, which is as long as the tape, the levelled one, and both stages of each round.
///
/// ```
/// use normalize::{whole, work_len, Refusal};
///
/// /// The atoms E, precedence, l, 1, 2, n, +, E1; E at 0 to 9: `"n"` at level 1, then `E "+"?` at level 2, the question mark's symbol at 4 to 6.
/// fn sums() -> Vec<u8> {
///     let texts: [&[u8]; 8] = [b"E", b"precedence", b"l", b"1", b"2", b"n", b"+", b"E1"];
///     let mut tape: Vec<u8> = texts.iter().flat_map(|text| [&[0x01, text.len() as u8, 0][..], text].concat()).collect();
///     tape.extend([0x10, 0, 0, 0, 0, 9, 0, 0, 0, 0, 0, 0, 0, 2, 0]);
///     tape.extend([0x12, 1, 0, 0, 0, 1, 0, 0, 0, 1, 0, 0, 0, 0, 1, 0, 0x13, 1, 0, 1, 2, 0, 3, 0]);
///     tape.extend([0x22, 1, 0, 0, 0, 1, 0, 0, 0, 5, 0]);
///     tape.extend([0x12, 2, 0, 0, 0, 6, 0, 0, 0, 1, 0, 0, 0, 0, 2, 0, 0x13, 1, 0, 1, 2, 0, 4, 0]);
///     tape.extend([0x20, 2, 0, 0, 0, 3, 0, 0, 0, 0, 0]);
///     tape.extend([0x26, 4, 0, 0, 0, 6, 0, 0, 0, 2, 0x22, 4, 0, 0, 0, 5, 0, 0, 0, 6, 0]);
///     tape
/// }
///
/// let (mut tape, mut output, mut work) = (sums(), [0; 400], vec![0; work_len(300, 400)]);
/// // levels: the item E1, whose name is an atom already, and a fall-through to it; no attributes
/// let levelled = 15 + 27 - 2 * 8;
/// // macros: a nonterminal in place of the repeat; the atoms `"+"?`, `Some(<>)`, `None`; the item: the literal, or nothing
/// let expanded = (7 + 11 + 7) + 15 + 27 + 16 - 10;
/// assert_eq!(whole(&tape, 1, &mut output, &mut work), Ok(tape.len() + levelled + expanded));
/// // without a round there is no such item
/// assert_eq!(whole(&tape, 0, &mut output, &mut work), Err(Refusal { number: 18, place: (4, 6) }));
/// // the name E1 meets a terminal at 8 to 9
/// tape.extend([0x30, 8, 0, 0, 0, 9, 0, 0, 0, 7, 0]);
/// assert_eq!(whole(&tape, 1, &mut output, &mut work), Err(Refusal { number: 6, place: (8, 9) }));
/// ```
pub fn whole(tape: &[u8], limit: u16, output: &mut [u8], work: &mut [u8]) -> Result<usize, Refusal> {
    let mut answer = Words::default();
    whole_words(tape, limit, output, work, &mut answer);
    answered(&answer)
}

/// The answer that the words say.
fn answered(words: &Words) -> Result<usize, Refusal> {
    match *words {
        [1, length, ..] => Ok(length as usize),
        [_, number, from, to, ..] => Err(Refusal { number: number as u8, place: (from, to) }),
    }
}
