//! Tapes of symbols, atoms, items and arguments, up to any size, and of names that are hard on the table of atoms.
use std::collections::HashMap;
use tape::tree::{Alternative, Item, Nonterminal, Repeat, Stage, Symbol};
use tape::write;

/// How many names a tape of symbols has.
const USED: usize = 64;

fn used(k: usize) -> String {
    format!("name{}", k % USED)
}

/// One alternative of as many symbols as fit, repeats, groups and names in turns, and its length on a tape.
fn alternative(room: usize) -> (Alternative, usize) {
    let (mut symbols, mut bytes) = (vec![], 0);
    while bytes + 60 < room && symbols.len() < 60_000 {
        let name = used(symbols.len());
        let inner = Symbol::name(&name);
        let (symbol, length) = match symbols.len() % 3 {
            0 => (inner.repeated(Repeat::Plus), 10),
            1 => (Symbol::group([inner]), 11),
            _ => (inner.named(name), 12),
        };
        symbols.push(symbol);
        bytes += length + 11;
    }
    (Alternative::new(symbols), bytes + 16)
}

/// A tape of about `size` bytes of symbols.
pub fn symbols(size: usize) -> Vec<u8> {
    let atoms: Vec<Vec<u8>> = (0..USED).map(|k| used(k).into_bytes()).collect();
    let room = size.saturating_sub(of_atoms(atoms.clone()).len());
    let (mut alternatives, mut bytes) = (vec![], 0);
    while bytes + 1_000 < room {
        let (alternative, length) = alternative((room - bytes).min(16_384));
        alternatives.push(alternative);
        bytes += length;
    }
    let item = Nonterminal::new(used(0)).alternatives(alternatives).into();
    write(&Stage { atoms, items: std::iter::once(item).chain((1..USED).map(|k| Item::external(used(k)))).collect() })
}

/// A tape of n nonterminals with so many arguments each; the one alternative of each names the next and its own arguments.
pub fn items(n: usize, arguments: usize) -> Vec<u8> {
    let item = |k: usize| {
        let own = (n..n + arguments).map(|k| Symbol::name(counted(k)));
        let next = counted((k + 1) % n);
        let call = if arguments > 0 { Symbol::call(next, vec![Symbol::quoted(counted(0)); arguments]) } else { Symbol::name(next) };
        let alternative = Alternative::new(own.chain([call]));
        (n..n + arguments).fold(Nonterminal::new(counted(k)), |item, k| item.arg(counted(k))).alternative(alternative).into()
    };
    write(&Stage { items: (0..n).map(item).collect(), atoms: (0..n + arguments).map(|k| counted(k).into_bytes()).collect() })
}

fn counted(k: usize) -> String {
    format!("a{k:x}")
}

/// A tape of n atoms.
pub fn atoms(n: usize) -> Vec<u8> {
    of_atoms((0..n).map(|k| counted(k).into_bytes()).collect())
}

fn of_atoms(atoms: Vec<Vec<u8>>) -> Vec<u8> {
    write(&Stage { atoms, items: vec![] })
}

const BLOCKS: u32 = 12;
const LETTERS: usize = 8;
type Word = [u8; LETTERS];

/// How many names `names_of_one_hash` and `names_of_many` have, and how many letters each.
pub const NAMES: usize = 1 << BLOCKS;
pub const LENGTH: usize = LETTERS * BLOCKS as usize;

/// A tape of 4,096 names whose hashes are all the same. The hash composes, so that of two words with one hash each may stand in the other's place.
pub fn names_of_one_hash() -> Vec<u8> {
    let alike = alike();
    names(|k, block| alike[k >> block & 1])
}

/// A tape of as many names of the same length, whose hashes differ.
pub fn names_of_many() -> Vec<u8> {
    names(|k, block| word(k as u64 * u64::from(BLOCKS) + u64::from(block)))
}

fn names(word: impl Fn(usize, u32) -> Word) -> Vec<u8> {
    of_atoms((0..NAMES).map(|k| (0..BLOCKS).flat_map(|block| word(k, block)).collect()).collect())
}

/// Two words with one hash: the first that are met.
fn alike() -> [Word; 2] {
    let mut met = HashMap::new();
    (0..).map(word).find_map(|word| met.insert(hash(&word), word).map(|before| [before, word])).expect("words without end")
}

/// The hash of crates/texts.
fn hash(text: &[u8]) -> u32 {
    text.iter().fold(0, |sum: u32, &byte| sum.wrapping_add(byte.into()).wrapping_mul(2_654_435_761))
}

/// A word of small letters that look drawn at random.
fn word(k: u64) -> Word {
    let mixed = (k + 1).wrapping_mul(0x9e37_79b9_7f4a_7c15);
    let mixed = (mixed ^ mixed >> 31).wrapping_mul(0xbf58_476d_1ce4_e5b9);
    std::array::from_fn(|place| b'a' + ((mixed >> (8 * place)) % 26) as u8)
}

#[cfg(test)]
mod tests {
    use super::*;
    use std::collections::HashSet;

    /// The hashes of a tape of atoms.
    fn hashes(tape: &[u8]) -> HashSet<u32> {
        tape.chunks(3 + LENGTH).map(|atom| hash(&atom[3..])).collect()
    }

    #[test]
    fn names_collide_as_said() {
        assert_eq!(hashes(&names_of_one_hash()).len(), 1);
        assert_eq!(hashes(&names_of_many()).len(), NAMES);
    }
}
