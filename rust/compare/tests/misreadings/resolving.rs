//! Name resolution written once more, with one misreading at a time.
use crate::{agrees, each_shows, no};
use compare::case::Case;
use compare::grow::Size;
use compare::mix;
use oracle::chance::Chance;
use oracle::Call;
use reading::tree::*;
use reading::Refusal;
use std::collections::HashMap;

misreadings! {
    /// "Later" told by tape order, not nonterminals, 30, 31.
    TapeOrder,
    EarlierSpan,
    /// A macro and a plain nonterminal of one name give 5.
    MacroIsNonterminal,
    /// Only arguments side by side are compared.
    NeighboursOnly,
    ArgumentsLast,
    ConditionLast,
    /// Any defined name will do in a condition.
    ConditionOfAny,
    /// An argument doesn't hide a terminal.
    TerminalShows,
    /// An argument doesn't hide a macro.
    MacroShows,
    /// The arguments of the item before are still seen.
    ArgumentsLeak,
    /// 24 may name a terminal.
    NonterminalOfTerminal,
    /// 24 may name a macro.
    NonterminalOfMacro,
    TooFewOnly,
    InnermostFirst,
    FirstOfGroupOnly,
    /// What stands under a name isn't looked at.
    NameStops,
    /// A terminal becomes a 24 as well.
    NoBareTerminal,
}

#[derive(Clone, Copy, Debug, PartialEq, Eq)]
enum Def {
    Terminal,
    Nonterminal(usize),
    Argument,
}

struct Model {
    misreading: Misreading,
    globals: HashMap<String, (Def, Span)>,
    args: Vec<String>,
}

fn resolve(stage: &Stage, misreading: Misreading) -> Result<Stage, Refusal> {
    let mut model = Model { misreading, globals: HashMap::new(), args: vec![] };
    model.declare(stage)?;
    let mut items = stage.items.clone();
    for item in &mut items {
        if let Item::Nonterminal(data) = item {
            model.nonterminal(data)?;
        }
    }
    Ok(Stage { atoms: stage.atoms.clone(), items })
}

fn kind(item: &Item) -> (usize, String, Def, Span) {
    match item {
        Item::Nonterminal(data) => (0, data.name.clone(), Def::Nonterminal(data.args.len()), data.span),
        Item::Extern(span, name) => (1, name.clone(), Def::Terminal, *span),
        Item::Match(span, name) => (2, name.clone(), Def::Terminal, *span),
    }
}

impl Model {
    fn is(&self, misreading: Misreading) -> bool {
        self.misreading == misreading
    }

    fn declare(&mut self, stage: &Stage) -> Result<(), Refusal> {
        let mut all: Vec<_> = stage.items.iter().map(kind).collect();
        if !self.is(TapeOrder) {
            all.sort_by_key(|(rank, ..)| *rank);
        }
        for (_, name, def, span) in all {
            let Some((old, earlier)) = self.globals.insert(name, (def, span)) else { continue };
            let sort = |def| match def {
                Def::Nonterminal(count) if count > 0 && !self.is(MacroIsNonterminal) => 2,
                Def::Nonterminal(_) => 1,
                _ => 0,
            };
            let number = if sort(old) == sort(def) { 5 } else { 6 };
            return no(number, if self.is(EarlierSpan) { earlier } else { span });
        }
        Ok(())
    }

    fn nonterminal(&mut self, data: &mut Nonterminal) -> Result<(), Refusal> {
        let mut sorted = data.args.clone();
        if !self.is(NeighboursOnly) {
            sorted.sort();
        }
        let twice = sorted.windows(2).any(|pair| pair[0] == pair[1]);
        if twice && !self.is(ArgumentsLast) {
            return no(7, data.span);
        }
        let before = std::mem::replace(&mut self.args, data.args.clone());
        if self.is(ArgumentsLeak) {
            self.args.extend(before);
        }
        for alternative in &mut data.alternatives {
            self.alternative(alternative)?;
        }
        if twice {
            return no(7, data.span);
        }
        self.args = data.args.clone();
        Ok(())
    }

    fn alternative(&self, data: &mut Alternative) -> Result<(), Refusal> {
        let condition = data.condition.as_ref().map_or(Ok(()), |condition| self.condition(condition));
        if !self.is(ConditionLast) {
            condition?;
        }
        self.symbols(&mut data.symbols)?;
        condition
    }

    fn condition(&self, condition: &Condition) -> Result<(), Refusal> {
        match self.look_up(&condition.lhs, condition.span)? {
            Def::Argument => Ok(()),
            _ if self.is(ConditionOfAny) => Ok(()),
            _ => no(9, condition.span),
        }
    }

    fn look_up(&self, name: &str, span: Span) -> Result<Def, Refusal> {
        let global = self.globals.get(name).map(|(def, _)| *def);
        let shows = match global {
            Some(Def::Terminal) => self.is(TerminalShows),
            Some(Def::Nonterminal(count)) => count > 0 && self.is(MacroShows),
            _ => false,
        };
        let argument = self.args.iter().any(|arg| arg == name) && !shows;
        let found = if argument { Some(Def::Argument) } else { global };
        found.map_or_else(|| no(8, span), Ok)
    }

    fn symbols(&self, symbols: &mut [Symbol]) -> Result<(), Refusal> {
        symbols.iter_mut().try_for_each(|symbol| self.symbol(symbol))
    }

    fn symbol(&self, symbol: &mut Symbol) -> Result<(), Refusal> {
        let span = symbol.span;
        match &mut symbol.kind {
            Kind::Ambiguous(name) => symbol.kind = self.rewritten(name, span)?,
            Kind::Nonterminal(name) => match self.look_up(name, span)? {
                Def::Terminal if !self.is(NonterminalOfTerminal) => return no(10, span),
                Def::Nonterminal(count) if count > 0 && !self.is(NonterminalOfMacro) => return no(10, span),
                _ => {}
            },
            Kind::Macro(name, args) => self.call(name, args, span)?,
            Kind::Group(inner) if self.is(FirstOfGroupOnly) => inner.first_mut().map_or(Ok(()), |first| self.symbol(first))?,
            Kind::Group(inner) => self.symbols(inner)?,
            Kind::Name { .. } if self.is(NameStops) => {}
            Kind::Repeat(_, inner) | Kind::Choose(inner) | Kind::Name { inner, .. } => self.symbol(inner)?,
            _ => {}
        }
        Ok(())
    }

    fn rewritten(&self, name: &str, span: Span) -> Result<Kind, Refusal> {
        match self.look_up(name, span)? {
            Def::Terminal if !self.is(NoBareTerminal) => Ok(Kind::Bare(name.to_string())),
            Def::Nonterminal(count) if count > 0 => no(13, span),
            _ => Ok(Kind::Nonterminal(name.to_string())),
        }
    }

    fn call(&self, name: &str, args: &mut [Symbol], span: Span) -> Result<(), Refusal> {
        if self.is(InnermostFirst) {
            self.symbols(args)?;
        }
        match self.look_up(name, span)? {
            Def::Nonterminal(count) if count > 0 => {
                if args.len() < count || (args.len() > count && !self.is(TooFewOnly)) {
                    return no(12, span);
                }
            }
            _ => return no(11, span),
        }
        self.symbols(args)
    }
}

fn differing(cases: &[Case], misreading: Misreading) -> usize {
    crate::differing(cases, Call::Resolve, usize::MAX, |tape, _, output, work| {
        reading::call(tape, output, work, |stage| Some(resolve(stage, misreading))).unwrap()
    })
}

/// Small trees, none damaged, with just enough room.
fn cases() -> Vec<Case> {
    let mut chance = Chance(11);
    (0..4_000).map(|_| Case::fitting(mix::case(&mut chance, Size::Few, 0).tape)).collect()
}

#[test]
fn the_model_itself_agrees() {
    agrees(|| differing(&cases(), Nothing));
}

#[test]
fn every_misreading_shows() {
    each_shows(ALL, cases, differing);
}
