//! The calls from tree to tree, with buffers of their own.
//!
//! A tree that no tape can carry is refused with 20, before anything else is asked. Nothing of this module is proved: it writes the tape that a proved
//! call is handed, and reads the tree that the call wrote.
use crate::{grown, Refusal};
use tape::tree::Stage;
use tape::{read_made, within_operands, write};

/// Name resolution alone, as [`crate::resolve`].
///
/// ```
/// use normalize::{trees, Refusal};
/// use tape::lalrpop::parse;
/// use tape::tree::{Item, Kind};
///
/// let resolved = trees::resolve(&parse("grammar; A = B; B = \"b\";").unwrap()).unwrap();
/// let Item::Nonterminal(a) = &resolved.items[0] else { panic!("A is a nonterminal") };
/// assert_eq!(a.alternatives[0].symbols[0].kind, Kind::Nonterminal("B".into()));
/// // B at 13 to 14 is not defined
/// assert_eq!(trees::resolve(&parse("grammar; A = B;").unwrap()), Err(Refusal { number: 8, place: (13, 14) }));
/// ```
pub fn resolve(stage: &Stage) -> Result<Stage, Refusal> {
    made(stage, 0, crate::resolve)
}

/// Name resolution, then precedence levels, as [`crate::levels`].
///
/// Where a stage doesn't fit in the output, the call is made again with one of twice the length, of `longest` bytes at most: then it is refused with 21.
/// An output as long as the tree's own tape is there in any case.
///
/// ```
/// use normalize::trees::levels;
/// use tape::lalrpop::parse;
///
/// let text = r##"grammar; E = { #[precedence(level="1")] "n", #[precedence(level="2")] E "+" E };"##;
/// // E1, the level below, and E
/// assert_eq!(levels(&parse(text).unwrap(), 1 << 20).unwrap().items.len(), 2);
/// let refusal = levels(&parse(&text.replace("1", "one")).unwrap(), 1 << 20).unwrap_err();
/// assert_eq!(refusal.sentence(), "a precedence level is not a number under 4294967296");
/// ```
pub fn levels(stage: &Stage, longest: usize) -> Result<Stage, Refusal> {
    made(stage, longest, crate::levels)
}

/// Name resolution, then macros in at most `limit` rounds, as [`crate::macros`]; of `longest` as in [`levels`].
///
/// ```
/// use normalize::trees::macros;
/// use tape::{lalrpop::parse, tree::Item};
///
/// let stage = parse("grammar; A = Two<\"b\">; Two<T> = T T;").unwrap();
/// let expanded = macros(&stage, 64, 1 << 20).unwrap();
/// let [_, Item::Nonterminal(two)] = &expanded.items[..] else { panic!("A and its call") };
/// assert_eq!(two.name, "Two<\"b\">");
/// ```
pub fn macros(stage: &Stage, limit: u16, longest: usize) -> Result<Stage, Refusal> {
    made(stage, longest, |tape, output, work| crate::macros(tape, limit, output, work))
}

/// All three passes, macros in at most `limit` rounds, as [`crate::whole`]; of `longest` as in [`levels`].
///
/// ```
/// use normalize::{trees, Refusal};
/// use tape::lalrpop::parse;
///
/// let stage = parse("grammar; A = B?; B = \"b\";").unwrap();
/// let expanded = trees::whole(&stage, 64, 1 << 20).unwrap();
/// // A, B and a nonterminal for `B?`
/// assert_eq!(expanded.items.len(), 3);
/// // without a round there is no such item; in an output as long as the tape it has no room
/// assert_eq!(trees::whole(&stage, 0, 1 << 20), Err(Refusal { number: 18, place: (13, 15) }));
/// assert_eq!(trees::whole(&stage, 64, 0), Err(Refusal { number: 21, place: (0, 0) }));
/// ```
pub fn whole(stage: &Stage, limit: u16, longest: usize) -> Result<Stage, Refusal> {
    made(stage, longest, |tape, output, work| crate::whole(tape, limit, output, work))
}

/// The tree that a call makes of a tree.
fn made(stage: &Stage, longest: usize, call: impl Fn(&[u8], &mut [u8], &mut [u8]) -> Result<usize, Refusal>) -> Result<Stage, Refusal> {
    if !within_operands(stage) {
        return Err(Refusal { number: 20, place: (0, 0) });
    }
    let tree = grown(&write(stage), longest, call)?;
    Ok(read_made(&tree).expect("a tree that a call wrote can be read"))
}
