//! A name changed all through a tree, and the walks that this takes: its nonterminals, and their symbols with those inside.
use oracle::chance::Chance;
use reading::tree::*;

pub fn nonterminals(items: &mut [Item]) -> impl Iterator<Item = &mut Nonterminal> {
    items.iter_mut().filter_map(|item| match item {
        Item::Nonterminal(data) => Some(data),
        _ => None,
    })
}

/// One nonterminal without arguments gets the name of another with a digit behind, so that names of levels can meet it, or its own levels' names.
/// Both names; nothing where there aren't two, or the new one is taken.
pub fn name_alike(chance: &mut Chance, items: &mut [Item]) -> Option<(String, String)> {
    let names: Vec<String> = nonterminals(items).filter(|data| data.args.is_empty()).map(|data| data.name.clone()).collect();
    if names.len() < 2 {
        return None;
    }
    let (old, other) = (chance.one_of(&names), chance.one_of(&names));
    let new = format!("{other}{}", chance.one_of(&["1", "1", "2", "0"]));
    if names.contains(&new) || old == other {
        return None;
    }
    for item in items {
        match item {
            Item::Nonterminal(data) => {
                rename(&mut data.name, &old, &new);
                rename_inside(data, &old, &new);
            }
            Item::Extern(_, name) | Item::Match(_, name) => rename(name, &old, &new),
        }
    }
    Some((other, new))
}

fn rename(name: &mut String, old: &str, new: &str) {
    if name == old {
        *name = new.to_string();
    }
}

/// Arguments, conditions and symbols.
pub fn rename_inside(data: &mut Nonterminal, old: &str, new: &str) {
    data.args.iter_mut().for_each(|arg| rename(arg, old, new));
    for alternative in &mut data.alternatives {
        alternative.condition.iter_mut().for_each(|condition| rename(&mut condition.lhs, old, new));
        each_symbol(&mut alternative.symbols, &mut |symbol| {
            if let Kind::Ambiguous(name) | Kind::Nonterminal(name) | Kind::Bare(name) | Kind::Macro(name, _) = &mut symbol.kind {
                rename(name, old, new);
            }
        });
    }
}

/// The symbols and those inside them, in tape order.
pub fn each_symbol(symbols: &mut [Symbol], visit: &mut dyn FnMut(&mut Symbol)) {
    for symbol in symbols {
        visit(symbol);
        each_symbol(symbol.kind.inner_mut(), visit);
    }
}
