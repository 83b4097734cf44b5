//! Question 20: atoms, texts, counts and nesting of a stage within their operands and 64. Such a stage, and no other, is carried by a tape.
use crate::tree::*;
use std::collections::HashSet;

/// Different texts that operands reach.
pub const MOST_TEXTS: usize = 65_536;
/// What an operand of 16 bits counts at most: alternatives, symbols, a text's bytes.
pub const HALF: usize = 65_535;
/// The same of 8 bits: arguments, attributes.
pub const BYTE: usize = 255;
/// How deep a symbol may be; one straight in an alternative is 1 deep.
pub const DEEPEST: usize = 64;

/// Whether a tape can carry the stage: at most 65,536 texts, each of at most 65,535 bytes, every count within its operand, and symbols at most 64 deep.
///
/// ```
/// use tape::tree::{Item, Span, Stage};
///
/// let named = |length| Stage::new([Item::Extern(Span(7, 8), "n".repeat(length))]);
/// assert!(tape::within_operands(&named(65_535)) && !tape::within_operands(&named(65_536)));
/// ```
pub fn within_operands(stage: &Stage) -> bool {
    let mut texts: HashSet<&[u8]> = stage.atoms.iter().map(Vec::as_slice).collect();
    let items = stage.items.iter().all(|item| item_within(item, &mut texts));
    items && texts.len() <= MOST_TEXTS && texts.iter().all(|text| text.len() <= HALF)
}

/// Collects the item's texts on the way.
fn item_within<'a>(item: &'a Item, texts: &mut HashSet<&'a [u8]>) -> bool {
    match item {
        Item::Extern(_, name) | Item::Match(_, name) => {
            texts.insert(name.as_bytes());
            true
        }
        Item::Nonterminal(nonterminal) => {
            texts.insert(nonterminal.name.as_bytes());
            texts.extend(nonterminal.args.iter().map(|name| name.as_bytes()));
            let counts = nonterminal.args.len() <= BYTE && nonterminal.alternatives.len() <= HALF;
            nonterminal.alternatives.iter().all(|alternative| alternative_within(alternative, texts)) && counts
        }
    }
}

fn alternative_within<'a>(alternative: &'a Alternative, texts: &mut HashSet<&'a [u8]>) -> bool {
    for attribute in &alternative.attributes {
        texts.insert(attribute.id.as_bytes());
        texts.extend(attribute.equal.iter().flat_map(|(key, value)| [key.as_bytes(), value.as_bytes()]));
    }
    if let Some(condition) = &alternative.condition {
        texts.extend([condition.lhs.as_bytes(), condition.rhs.as_bytes()]);
    }
    if let Action::User(text) | Action::Fallible(text) = &alternative.action {
        texts.insert(text.as_bytes());
    }
    let counts = alternative.attributes.len() <= BYTE && alternative.symbols.len() <= HALF;
    alternative.symbols.iter().all(|symbol| symbol_within(symbol, 1, texts)) && counts
}

fn symbol_within<'a>(symbol: &'a Symbol, depth: usize, texts: &mut HashSet<&'a [u8]>) -> bool {
    let most = match &symbol.kind {
        Kind::Macro(..) => BYTE,
        _ => HALF,
    };
    match &symbol.kind {
        Kind::Ambiguous(text) | Kind::Bare(text) | Kind::Quoted(text) | Kind::Regex(text) | Kind::Nonterminal(text) => {
            texts.insert(text.as_bytes());
        }
        Kind::Macro(name, _) | Kind::Name { name, .. } => {
            texts.insert(name.as_bytes());
        }
        _ => {}
    }
    let inner = symbol.kind.inner();
    depth <= DEEPEST && inner.len() <= most && inner.iter().all(|symbol| symbol_within(symbol, depth + 1, texts))
}
