//! The macros of the whole call written once more behind the Rust's resolving and levels, with one misreading at a time.
use crate::{agrees, each_shows, no};
use compare::case::{at_every_length, Case, Room, Rounds};
use compare::grow::Size;
use compare::whole::random;
use oracle::chance::Chance;
use oracle::{staged, Call};
use reading::tree::*;
use reading::{printed, Refusal, Step};
use std::collections::{HashMap, HashSet};

misreadings! {
    FirstInFirstOut,
    /// What the second replacing stage pushes never gets an item.
    NamesLeft,
    /// Arguments are put in one after another.
    OneAfterAnother,
    /// 21 where a stage is just as long as the output.
    ByteEarly,
    EighteenAtFirst,
    /// Levels are not resolved again: 5, 6 and 10 are missed.
    AgainNotAsked,
    /// Macro definitions stand in the first replacing stage.
    MacrosKept,
    /// A printed form that is the text of an atom counts as pushed.
    KnownIsPushed,
    /// The item of `X+` holds another `X+`, not the nonterminal of its name.
    PlusHoldsPlus,
    /// 20 and 21 of a stage before 18.
    SizesBefore18,
    /// The levelled stage is neither measured nor are its texts atoms before the next.
    NoLevelledStage,
    OneRoundMore,
    /// What is put in takes the argument's span.
    ArgumentsSpan,
    /// The alternatives of an expanded macro keep their spans.
    DefinitionsSpans,
    /// 17 at the call.
    SeventeenAtCall,
    /// Any symbol that prints as the literal will do in a condition.
    PrintedCondition,
    /// 19 of names behind a choice too.
    NamesBehindChoice,
    /// A group's action is `<>` only of one symbol.
    ChosenNotCounted,
    /// A macro's attributes are dropped.
    AttributesDropped,
}

struct Model {
    misreading: Misreading,
    macros: HashMap<String, Nonterminal>,
    pushed: HashSet<String>,
    pile: Vec<Symbol>,
}

/// The Rust's resolved and levelled trees, and the model's rounds.
fn steps(stage: &Stage, limit: u16, misreading: Misreading) -> Option<Vec<Step>> {
    let mut steps = staged(stage, Call::Levels, 0)?;
    let Some(Step::Finished(levelled)) = steps.get(1).cloned() else { return Some(steps) };
    let again = oracle::resolve(&Stage::new(levelled.clone()))?;
    if let (Err(refusal), true) = (again, misreading != AgainNotAsked) {
        steps.push(Step::Refused(refusal));
        return Some(steps);
    }
    let known = reading::read(&reading::write(stage)).ok()?.atoms.into_iter().filter_map(|text| String::from_utf8(text).ok());
    let pushed = if misreading == KnownIsPushed { known.collect() } else { HashSet::new() };
    let mut model = Model { misreading, macros: HashMap::new(), pushed, pile: vec![] };
    if misreading == NoLevelledStage {
        steps.pop();
    }
    model.rounds(levelled, limit, &mut steps);
    Some(steps)
}

impl Model {
    fn is(&self, misreading: Misreading) -> bool {
        self.misreading == misreading
    }

    fn rounds(&mut self, levelled: Vec<Item>, limit: u16, steps: &mut Vec<Step>) {
        let (definitions, mut items): (Vec<Item>, Vec<Item>) =
            levelled.into_iter().partition(|item| matches!(item, Item::Nonterminal(data) if !data.args.is_empty()));
        for definition in &definitions {
            if let Item::Nonterminal(data) = definition {
                self.macros.insert(data.name.clone(), data.clone());
            }
        }
        let most = if self.is(OneRoundMore) { limit + 1 } else { limit };
        let (mut replaced, mut rounds) = (0, 0);
        loop {
            items[replaced..].iter_mut().for_each(|item| self.replace_item(item));
            replaced = items.len();
            let kept = if self.is(MacrosKept) && rounds == 0 { &definitions[..] } else { &[] };
            let stage = Step::Finished([&items[..], kept].concat());
            let place = if self.is(EighteenAtFirst) { self.pile.first() } else { self.pile.last() }.map(|symbol| symbol.span);
            if let (Some(span), true) = (place, rounds == most) {
                steps.extend(self.is(SizesBefore18).then_some(stage));
                return steps.extend(no::<()>(18, span).err().map(Step::Refused));
            }
            steps.push(stage);
            if self.pile.is_empty() || (self.is(NamesLeft) && rounds == 1) {
                return;
            }
            if let Err(refusal) = self.drain(&mut items) {
                return steps.push(Step::Refused(refusal));
            }
            steps.push(Step::Finished(items.clone()));
            rounds += 1;
        }
    }

    // ---- replacing

    fn replace_item(&mut self, item: &mut Item) {
        if let Item::Nonterminal(data) = item {
            data.alternatives.iter_mut().for_each(|alternative| self.replace_list(&mut alternative.symbols));
        }
    }

    fn replace_list(&mut self, symbols: &mut [Symbol]) {
        symbols.iter_mut().for_each(|symbol| self.replace(symbol));
    }

    fn replace(&mut self, symbol: &mut Symbol) {
        match &mut symbol.kind {
            Kind::Macro(_, inner) | Kind::Group(inner) => self.replace_list(inner),
            Kind::Repeat(_, inner) => self.replace(inner),
            Kind::Choose(inner) | Kind::Name { inner, .. } => return self.replace(inner),
            Kind::Lookahead | Kind::Lookbehind => {}
            _ => return,
        }
        let name = printed(symbol);
        let replacement = Symbol { span: symbol.span, kind: Kind::Nonterminal(name.clone()) };
        let old = std::mem::replace(symbol, replacement);
        if self.pushed.insert(name) {
            self.pile.push(old);
        }
    }

    // ---- appending

    fn drain(&mut self, items: &mut Vec<Item>) -> Result<(), Refusal> {
        while !self.pile.is_empty() {
            let symbol = self.pile.remove(if self.is(FirstInFirstOut) { 0 } else { self.pile.len() - 1 });
            items.push(Item::Nonterminal(self.item(symbol)?));
        }
        Ok(())
    }

    fn item(&self, symbol: Symbol) -> Result<Nonterminal, Refusal> {
        let (span, name) = (symbol.span, printed(&symbol));
        let made = |alternatives: Vec<Alternative>| Nonterminal::new(&name).inline().alternatives(alternatives).at(span);
        match symbol.kind {
            Kind::Macro(called, args) => {
                let data = &self.macros[&called];
                Ok(Nonterminal { public: data.public, inline: data.inline, ..made(self.call(span, data, &args)?) })
            }
            Kind::Group(symbols) => self.group(span, symbols).map(|alternative| made(vec![alternative])),
            Kind::Repeat(Repeat::Plus, inner) => Ok(Nonterminal { inline: false, ..made(self.plus(span, &name, *inner)) }),
            Kind::Repeat(op, inner) => Ok(made(star_or_question(span, op, *inner))),
            Kind::Lookahead => Ok(made(vec![Alternative::new([]).action(Action::Lookahead).at(span)])),
            _ => Ok(made(vec![Alternative::new([]).action(Action::Lookbehind).at(span)])),
        }
    }

    fn plus(&self, span: Span, name: &str, inner: Symbol) -> Vec<Alternative> {
        let itself = if self.is(PlusHoldsPlus) { inner.clone().repeated(Repeat::Plus) } else { Symbol::nonterminal(name) };
        let more = [itself.at(span).named("v").at(span), inner.clone().named("e").at(span)];
        vec![alternative(span, [inner], "alloc::vec![<>]"), alternative(span, more, "{ let mut v = v; v.push(e); v }")]
    }

    fn group(&self, span: Span, symbols: Vec<Symbol>) -> Result<Alternative, Refusal> {
        let is_named = |symbol: &Symbol| match &symbol.kind {
            Kind::Choose(inner) if self.is(NamesBehindChoice) => matches!(inner.kind, Kind::Name { .. }),
            kind => matches!(kind, Kind::Name { .. }),
        };
        if symbols.iter().any(is_named) {
            return no(19, span);
        }
        let chosen = symbols.iter().filter(|symbol| matches!(symbol.kind, Kind::Choose(_))).count();
        let count = if chosen == 0 || self.is(ChosenNotCounted) { symbols.len() } else { chosen };
        Ok(Alternative::new(symbols).action(user(if count == 1 { "<>" } else { "(<>)" })).at(span))
    }

    // ---- calls

    fn call(&self, span: Span, data: &Nonterminal, args: &[Symbol]) -> Result<Vec<Alternative>, Refusal> {
        let mut all = vec![];
        for from in &data.alternatives {
            if self.holds(span, data, args, from.condition.as_ref())? {
                let span = if self.is(DefinitionsSpans) { from.span } else { span };
                let attributes = if self.is(AttributesDropped) { vec![] } else { from.attributes.clone() };
                all.push(Alternative {
                    span,
                    condition: None,
                    attributes,
                    symbols: self.put_in(data, args, &from.symbols),
                    ..from.clone()
                });
            }
        }
        Ok(all)
    }

    fn holds(&self, span: Span, data: &Nonterminal, args: &[Symbol], condition: Option<&Condition>) -> Result<bool, Refusal> {
        let Some(condition) = condition else { return Ok(true) };
        let place = data.args.iter().position(|name| *name == condition.lhs).expect("an argument");
        let text = match &args[place].kind {
            Kind::Quoted(text) => text.clone(),
            _ if self.is(PrintedCondition) => printed(&args[place]),
            _ => return no(17, if self.is(SeventeenAtCall) { span } else { condition.span }),
        };
        Ok((text == condition.rhs) == condition.equals)
    }

    fn put_in(&self, data: &Nonterminal, args: &[Symbol], symbols: &[Symbol]) -> Vec<Symbol> {
        let mut symbols = symbols.to_vec();
        let pairs: Vec<(&String, &Symbol)> = data.args.iter().zip(args).collect();
        if self.is(OneAfterAnother) {
            pairs.iter().for_each(|pair| self.put_into(&mut symbols, std::slice::from_ref(pair)));
        } else {
            self.put_into(&mut symbols, &pairs);
        }
        symbols
    }

    fn put_into(&self, symbols: &mut [Symbol], pairs: &[(&String, &Symbol)]) {
        for symbol in symbols {
            let Kind::Nonterminal(name) = &symbol.kind else {
                self.put_into(symbol.kind.inner_mut(), pairs);
                continue;
            };
            if let Some((_, arg)) = pairs.iter().find(|(known, _)| *known == name) {
                let span = if self.is(ArgumentsSpan) { arg.span } else { symbol.span };
                *symbol = Symbol { span, kind: arg.kind.clone() };
            }
        }
    }
}

fn alternative<const N: usize>(span: Span, symbols: [Symbol; N], text: &str) -> Alternative {
    Alternative::new(symbols).action(user(text)).at(span)
}

fn user(text: &str) -> Action {
    Action::User(text.to_string())
}

fn star_or_question(span: Span, op: Repeat, inner: Symbol) -> Vec<Alternative> {
    if op == Repeat::Question {
        return vec![alternative(span, [inner], "Some(<>)"), alternative(span, [], "None")];
    }
    let plus = inner.repeated(Repeat::Plus).at(span);
    vec![alternative(span, [], "alloc::vec![]"), alternative(span, [plus.named("v").at(span)], "v")]
}

// ---- the comparison

fn differing(cases: &[Case], misreading: Misreading, most: usize) -> usize {
    crate::differing(cases, Call::Whole, most, |tape, limit, output, work| {
        let room = if misreading == ByteEarly { output.saturating_sub(1) } else { output };
        reading::answer(tape, room, work, |stage| steps(stage, limit, misreading)).unwrap()
    })
}

/// Small trees, none damaged, at the length of each stage, with work just long enough.
fn cases(trees: usize) -> Vec<Case> {
    let mut chance = Chance(19);
    let at_lengths = |_| {
        let tape = reading::write(&random(&mut chance, Size::Few));
        let rounds = Rounds { call: Call::Whole, limit: chance.one_of(&[0, 1, 2, 3, 4]), longest: 3 * tape.len() + 2_000 };
        at_every_length(&mut chance, &tape, rounds)
    };
    (0..trees).flat_map(at_lengths).map(|case| Case { room: Room { work: 0, ..case.room }, ..case }).collect()
}

#[test]
fn the_model_itself_agrees() {
    agrees(|| differing(&cases(400), Nothing, usize::MAX));
}

#[test]
fn every_misreading_shows() {
    each_shows(ALL, || cases(2_000), |cases, misreading| differing(cases, misreading, 3));
}
