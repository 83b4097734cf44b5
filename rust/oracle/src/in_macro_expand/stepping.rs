// Included behind the text of LALRPOP's module macro_expand (build.rs), whose private parts it calls: the same rounds, with a look at the
// items between their steps. `crate::staging` holds the end against `expand_macros`'s own.

/// How the rounds ended: nothing pending, a symbol pending and no round left, or a refusal of the Rust's.
#[derive(Debug)]
pub enum Ended {
    Done,
    NoRoundLeft(Span),
    Refused(NormError),
}

/// Expands a grammar in at most so many rounds; shows the items after each replacing stage but one with no round left, and after each
/// appending stage.
pub fn step_by_step(input: Grammar, limit: u16, show: &mut dyn FnMut(&[GrammarItem])) -> Ended {
    let (mut expander, mut items) = match taken_apart(input) {
        Ok(parts) => parts,
        Err(error) => return Ended::Refused(error),
    };
    let (mut replaced, mut rounds) = (0, 0);
    loop {
        items[replaced..].iter_mut().for_each(|item| expander.replace_item(item));
        replaced = items.len();
        if let (Some(last), true) = (expander.expansion_stack.last(), rounds == limit) {
            return Ended::NoRoundLeft(last.span);
        }
        show(&items);
        if expander.expansion_stack.is_empty() {
            return Ended::Done;
        }
        while let Some(symbol) = expander.expansion_stack.pop() {
            match expander.item_of(symbol) {
                Ok(item) => items.push(item),
                Err(error) => return Ended::Refused(error),
            }
        }
        show(&items);
        rounds += 1;
    }
}

/// The items that the Rust's own rounds leave, be it with a refusal.
pub fn left_by_the_rust(input: Grammar, limit: u16) -> NormResult<(Vec<GrammarItem>, NormResult<()>)> {
    let (mut expander, mut items) = taken_apart(input)?;
    let answer = expander.expand(&mut items, limit);
    Ok((items, answer))
}

/// An expander with the macros of a resolved grammar, and the other items.
fn taken_apart(input: Grammar) -> NormResult<(MacroExpander, Vec<GrammarItem>)> {
    let (macros, items): (Vec<_>, Vec<_>) = resolve::resolve(input)?.items.into_iter().partition(|item| item.is_macro_def());
    let named = macros.into_iter().filter_map(|item| match item {
        GrammarItem::Nonterminal(data) => Some((data.name.clone(), data)),
        _ => None,
    });
    Ok((MacroExpander::new(named.collect()), items))
}

impl MacroExpander {
    /// The item of a symbol that was taken off the pile.
    fn item_of(&mut self, symbol: Symbol) -> NormResult<GrammarItem> {
        let span = symbol.span;
        match symbol.kind {
            SymbolKind::Macro(call) => self.expand_macro_symbol(span, call),
            SymbolKind::Expr(group) => self.expand_expr_symbol(span, group),
            SymbolKind::Repeat(repeat) => self.expand_repeat_symbol(span, *repeat),
            SymbolKind::Lookahead => self.expand_lookaround_symbol(span, "@L", ActionKind::Lookahead),
            SymbolKind::Lookbehind => self.expand_lookaround_symbol(span, "@R", ActionKind::Lookbehind),
            _ => unreachable!("nothing else is pushed"),
        }
    }
}
