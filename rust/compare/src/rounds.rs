//! Trees for macros: grown ones (`grow`) with more calls, most of which end; macros that hand their arguments on, for some rounds or for ever; macros
//! that count by conditions; long texts that are nearly the same; and every small symbol, in and around a macro.
use crate::grow::{texts, tree, tree_so_wild, Size};
use crate::renamed::{each_symbol, nonterminals};
use crate::stages::deciding;
use oracle::chance::Chance;
use oracle::Call;
use reading::parse;
use reading::tree::*;
use reading::Step;

// ---- grown trees

/// A macro's name, and for each argument the literals that its conditions hold it against.
#[derive(Clone)]
struct Macro {
    name: String,
    asked: Vec<Vec<String>>,
}

struct Caller<'a> {
    chance: &'a mut Chance,
    macros: Vec<Macro>,
    /// A macro calls only those behind it.
    ends: bool,
    /// What a condition asks about is a literal.
    literals: bool,
    /// No name stands straight in a group; else more than were there.
    unnamed: bool,
}

/// A grown tree: mostly one that is resolved and expanded in a few rounds.
pub fn calling(chance: &mut Chance, size: Size) -> Stage {
    let stage = if chance.percent(90) { tree_so_wild(chance, size, 0) } else { tree(chance, size) };
    with_calls(chance, stage, Call::Macros)
}

/// The tree with more calls, for this call of ours.
pub fn with_calls(chance: &mut Chance, mut stage: Stage, call: Call) -> Stage {
    let macros = nonterminals(&mut stage.items).filter(|data| !data.args.is_empty()).map(|data| asking(data)).collect();
    let (ends, literals, unnamed) = (chance.percent(80), chance.percent(85), chance.percent(85));
    let mut caller = Caller { chance, macros, ends, literals, unnamed };
    nonterminals(&mut stage.items).for_each(|data| caller.nonterminal(data));
    if chance.percent(25) {
        made_texts(chance, &mut stage, call);
    }
    stage
}

fn asking(data: &Nonterminal) -> Macro {
    let conditions = || data.alternatives.iter().filter_map(|alternative| alternative.condition.as_ref());
    let asked = |arg: &String| conditions().filter(|condition| condition.lhs == *arg).map(|condition| condition.rhs.clone()).collect();
    Macro { name: data.name.clone(), asked: data.args.iter().map(asked).collect() }
}

/// Some of the texts that a call makes, or some much like them, become atoms that stand in front or behind, unless they are there already.
pub fn made_texts(chance: &mut Chance, stage: &mut Stage, call: Call) {
    let steps = deciding(stage, call, 3, usize::MAX).unwrap_or_default();
    let Some(Step::Finished(items)) = steps.iter().rfind(|step| matches!(step, Step::Finished(_))) else { return };
    let made = texts(items);
    for _ in 0..(1 + chance.under(4)).min(made.len()) {
        let text = chance.one_of(&made);
        let text = if chance.percent(25) { exchanged(&text) } else { text };
        if !stage.atoms.contains(&text) {
            stage.atoms.insert(chance.under(stage.atoms.len() + 1), text);
        }
    }
}

impl Caller<'_> {
    fn nonterminal(&mut self, data: &mut Nonterminal) {
        let in_scope: Vec<Macro> = self.macros.iter().filter(|known| !data.args.contains(&known.name)).cloned().collect();
        let own = self.macros.iter().position(|known| known.name == data.name && !data.args.is_empty());
        for alternative in &mut data.alternatives {
            if !in_scope.is_empty() && self.chance.percent(50) {
                let call = self.call(&in_scope, &alternative.symbols);
                let place = self.chance.under(alternative.symbols.len() + 1);
                alternative.symbols.insert(place, call);
            }
            each_symbol(&mut alternative.symbols, &mut |symbol| self.made_fine(symbol, own));
        }
    }

    fn call(&mut self, macros: &[Macro], symbols: &[Symbol]) -> Symbol {
        let known = self.chance.one_of(macros);
        let args = known.asked.iter().map(|_| self.argument(symbols)).collect();
        self.spanned(Kind::Macro(known.name, args))
    }

    fn spanned(&mut self, kind: Kind) -> Symbol {
        Symbol { span: Span(self.chance.under(200) as u32, self.chance.under(200) as u32), kind }
    }

    /// A literal, or one of these symbols with something around it.
    fn argument(&mut self, symbols: &[Symbol]) -> Symbol {
        let literal = self.spanned(Kind::Quoted("x".to_string()));
        let inner = if symbols.is_empty() || self.chance.percent(30) { literal.clone() } else { self.chance.one_of(symbols) };
        let kind = match self.chance.under(8) {
            0 => Kind::Repeat(self.chance.one_of(&[Repeat::Star, Repeat::Plus, Repeat::Question]), Box::new(inner)),
            1 => Kind::Group(vec![inner, literal]),
            2 => Kind::Choose(Box::new(inner)),
            _ => inner.kind,
        };
        self.spanned(kind)
    }

    /// `own` is the place among the macros where the symbol stands.
    fn made_fine(&mut self, symbol: &mut Symbol, own: Option<usize>) {
        while self.ends && self.calls_back(&symbol.kind, own) {
            symbol.kind = symbol.kind.inner()[0].kind.clone();
        }
        match &mut symbol.kind {
            Kind::Macro(name, args) if self.literals => {
                let asked = self.macros.iter().find(|known| known.name == *name).map_or(vec![], |known| known.asked.clone());
                args.iter_mut().zip(asked).filter(|(_, texts)| !texts.is_empty()).for_each(|(arg, texts)| arg.kind = self.literal(&texts));
            }
            Kind::Group(symbols) => symbols.iter_mut().for_each(|symbol| self.in_group(symbol)),
            _ => {}
        }
    }

    fn in_group(&mut self, symbol: &mut Symbol) {
        while let (Kind::Name { inner, .. }, true) = (&symbol.kind, self.unnamed) {
            symbol.kind = inner.kind.clone();
        }
        if !self.unnamed && self.chance.percent(20) {
            let (name, inner) = ("v".to_string(), Box::new(symbol.clone()));
            symbol.kind = Kind::Name { mutable: self.chance.percent(30), name, inner };
        }
    }

    fn calls_back(&self, kind: &Kind, own: Option<usize>) -> bool {
        let Kind::Macro(name, _) = kind else { return false };
        own.is_some_and(|own| self.macros[..=own].iter().any(|known| known.name == *name))
    }

    /// Mostly one of these.
    fn literal(&mut self, texts: &[String]) -> Kind {
        Kind::Quoted(if self.chance.percent(70) { self.chance.one_of(texts) } else { "x".to_string() })
    }
}

// ---- rounds that are counted

/// What stands around a symbol; with the last two it may be refused: a name in a group, a call of `chain` with one argument.
const LAYERS: [&str; 9] = ["_*", "_+", "_?", "<_>", "(_)", "(_ \"x\")", "(<_> @L <@R>)", "<v:_>", "M0<_>"];
const ARGUMENTS: [&str; 9] = ["\"x\"", "\"\\\\\"", "n", "P", "Q", "@L", "!", "r\"x\"", "<w:n>"];

fn around(chance: &mut Chance, text: &str) -> String {
    let count = if chance.percent(10) { 9 } else { 7 };
    chance.one_of(&LAYERS[..count]).replace('_', text)
}

/// Macros that hand their arguments on, each to the next or the next two. The last has none to call, or the first: which ends where it is called as before,
/// and doesn't where the argument gets longer. Nonterminals bear the parameters' names.
pub fn chain(chance: &mut Chance) -> Stage {
    let (links, more) = (1 + chance.under(6), chance.one_of(&[0, 20, 60]));
    // mostly none
    let (asking, is_closed) = (chance.under(15), chance.percent(40));
    let mut text = format!("S = M0<{}, {}>; ", chance.one_of(&ARGUMENTS), chance.one_of(&ARGUMENTS));
    for link in 0..links {
        let next = if link + 1 < links || is_closed { Some((link + 1) % links) } else { None };
        let calls = if chance.percent(10) { 2 } else { 1 };
        let body: String = (0..calls).map(|_| handed_on(chance, next, more)).collect();
        let condition = if link == asking { chance.one_of(&["if P == \"x\"", "if Q != \"x\""]) } else { "" };
        text += &format!("M{link}<P, Q> = {body}{condition}; ");
    }
    parse(&format!("{text}P = {{ \"p\", (Q)* }}; Q = n; extern {{ enum T {{ n => N }} }}"))
}

fn handed_on(chance: &mut Chance, next: Option<usize>, more: usize) -> String {
    let mut argument = |name: &str| if chance.percent(more) { around(chance, name) } else { name.to_string() };
    let (one, other) = (argument("P"), argument("Q"));
    let Some(next) = next else { return format!("{one} {other} ") };
    let (first, second) = if chance.percent(50) { (one, other) } else { (other, one) };
    let call = format!("M{next}<{first}, {second}>");
    format!("{} ", if chance.percent(30) { around(chance, &call) } else { call })
}

/// A macro that counts by conditions, to a number or around.
pub fn counting(chance: &mut Chance) -> Stage {
    let count = 1 + chance.under(9);
    let alternative = |number: usize| {
        let op = if chance.percent(85) { "==" } else { "!=" };
        let (next, symbol) = (chance.one_of(&[number + 1, number + 1, number + 1, 0]), chance.one_of(&["P", "P*", "(P P)", "@R", ""]));
        format!("{symbol} C<\"{next}\"> if P {op} \"{number}\"")
    };
    let alternatives: Vec<String> = (0..count).map(alternative).collect();
    let first = chance.one_of(&["\"0\"", "\"0\"", "\"1\"", "n"]);
    parse(&format!("S = C<{first}>; #[inline] pub C<P> = {{ {}, \"end\" }}; extern {{ enum T {{ n => N }} }}", alternatives.join(", ")))
}

// ---- long texts that are nearly the same

/// Words of 64 letters, all of one hash: a polynomial modulo 2^32 in an odd number doesn't tell this one from itself with a and b exchanged.
fn word(is_exchanged: bool) -> String {
    (0..64_u32).map(|place| if (place.count_ones() % 2 == 0) == is_exchanged { 'a' } else { 'b' }).collect()
}

fn exchanged(text: &[u8]) -> Vec<u8> {
    let other = |byte: &u8| match byte {
        b'a' => b'b',
        b'b' => b'a',
        byte => *byte,
    };
    text.iter().map(other).collect()
}

/// Symbols around texts of up to nine such words, all of one length: their printed forms have to be compared byte by byte.
pub fn alike(chance: &mut Chance) -> Stage {
    let words = 1 + chance.under(9);
    let names = [0, 1, 2].map(|_| (0..words).map(|_| word(chance.percent(50))).collect::<String>());
    let front = chance.one_of(&["", "x", "\\", "xy\\z", "0123456789"]);
    let symbols: Vec<String> = (0..3 + chance.under(5)).map(|_| one_alike(chance, &names, front)).collect();
    let mut declared = names.to_vec();
    declared.sort();
    declared.dedup();
    let declared: String = declared.iter().map(|name| format!("{name} => N, ")).collect();
    let mut stage = parse(&format!("S = {}; M0<P> = P+ K<P>?; K<P> = P; extern {{ enum T {{ {declared}}} }}", symbols.join(" ")));
    if chance.percent(50) {
        made_texts(chance, &mut stage, Call::Macros);
    }
    stage
}

fn one_alike(chance: &mut Chance, names: &[String], front: &str) -> String {
    let mut leaf = || match chance.under(4) {
        0 => chance.one_of(names),
        1 => format!("r\"{front}{}\"", chance.one_of(names)),
        _ => format!("\"{}{}\"", front.replace('\\', "\\\\"), chance.one_of(names)),
    };
    let (one, other) = (leaf(), leaf());
    chance.one_of(&["A*", "A?", "M0<A>", "M0<A>", "(A B)", "M0<(A B)>", "K<<A>>"]).replace('A', &one).replace('B', &other)
}

// ---- every small symbol

/// All symbols of up to so many layers around one of these.
fn symbols(layers: usize, leaves: &[&str]) -> Vec<String> {
    let mut all: Vec<String> = leaves.iter().map(|leaf| leaf.to_string()).collect();
    let mut last = all.clone();
    for _ in 0..layers {
        // a name of a name is left to the grown trees
        let fits = |layer: &&str, text: &str| !(layer.starts_with("<v:") && text.starts_with("<v:"));
        let around =
            |text: &String| LAYERS.iter().filter(|layer| fits(layer, text)).map(|layer| layer.replace('_', text)).collect::<Vec<_>>();
        last = last.iter().flat_map(around).collect();
        all.extend(last.clone());
    }
    all
}

/// Each symbol of up to so many layers as a macro's argument, beside each as the macro's alternative.
pub fn every(outside: usize, inside: usize) -> Vec<Stage> {
    let (outside, inside) = (symbols(outside, &["\"x\"", "n", "@R"]), symbols(inside, &["P", "\"x\"", "@L"]));
    let grammars = outside
        .iter()
        .flat_map(|one| inside.iter().map(move |other| format!("S = {one} M0<{one}>; M0<P> = {other}; extern {{ enum T {{ n => N }} }}")));
    grammars.map(|text| parse(&text)).collect()
}
