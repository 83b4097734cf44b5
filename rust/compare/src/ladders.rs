//! Trees for levels: grown ones (`grow`) whose nonterminals get levels, sides and occurrences of themselves; and every short ladder of levels.
use crate::grow::{tree, tree_so_wild, Size};
use crate::renamed::{each_symbol, name_alike, nonterminals, rename_inside};
use oracle::chance::Chance;
use reading::tree::*;
use reading::{level_refusal, parse};

/// Levels of the alternatives of one nonterminal: ascending, descending, equal ones in several texts, those whose names can meet, the highest.
const LADDERS: [[&str; 5]; 10] = [
    ["1", "2", "3", "10", "11"],
    ["0", "9", "10", "11", "100"],
    ["1", "+1", "001", "2", "+02"],
    ["9", "5", "5", "1", "0"],
    ["2", "1", "1", "3", "1"],
    ["11", "12", "1", "2", "21"],
    ["1", "11", "12", "2", "22"],
    ["7", "7", "7", "7", "7"],
    ["4294967293", "4294967294", "+4294967295", "00000000004294967295", "4294967295"],
    ["4294967295", "0", "+0", "1", "10"],
];
pub const BAD_LEVELS: [&str; 10] = ["", "+", "-0", "-1", "1 ", "++1", "one", "4294967296", "99999999999999999999", "1\0"];
pub const SIDES: [&str; 4] = ["left", "right", "none", "all"];
const BAD_SIDES: [&str; 6] = ["Left", "", "both", "left ", "lef", "allright"];
const KEYS: [&str; 5] = ["level", "side", "lvl", "", "A"];
pub const LEVEL: &str = "precedence";
pub const SIDE: &str = "assoc";

/// How often, in a hundred, two names are alike, a macro is annotated, and no level is refused.
#[derive(Clone, Copy)]
pub struct Often {
    pub alike: usize,
    pub macros: usize,
    pub fine: usize,
}

/// A grown tree with levels: mostly one that is resolved, and whose levels can be read.
pub fn graded(chance: &mut Chance, size: Size) -> Stage {
    let stage = if chance.percent(85) { tree_so_wild(chance, size, 0) } else { tree(chance, size) };
    with_levels(chance, stage, Often { alike: 50, macros: 30, fine: 50 })
}

/// The tree with levels on some of its nonterminals.
pub fn with_levels(chance: &mut Chance, mut stage: Stage, often: Often) -> Stage {
    let alike = if chance.percent(often.alike) { name_alike(chance, &mut stage.items) } else { None };
    let (is_fine, bad) = (chance.percent(often.fine), chance.one_of(&[0, 3, 20]));
    let macros = macros(&stage.items);
    let mut grader = Grader { chance, bad, macros, of_macros: often.macros, alike };
    nonterminals(&mut stage.items).for_each(|data| *data = grader.one_of_many(data, is_fine));
    if chance.percent(30) {
        made_names(chance, &mut stage);
    }
    stage
}

/// Macros with their counts of arguments.
fn macros(items: &[Item]) -> Vec<(String, usize)> {
    let head = |item: &Item| match item {
        Item::Nonterminal(data) if !data.args.is_empty() => Some((data.name.clone(), data.args.len())),
        _ => None,
    };
    items.iter().filter_map(head).collect()
}

/// Some names of levels become atoms that stand in front or behind, unless they are there already.
fn made_names(chance: &mut Chance, stage: &mut Stage) {
    let names: Vec<String> = nonterminals(&mut stage.items).map(|data| data.name.clone()).collect();
    for _ in 0..(1 + chance.under(3)).min(names.len()) {
        let level = chance.one_of(&LADDERS.concat());
        let text = format!("{}{}", chance.one_of(&names), level.parse::<u32>().expect("a level")).into_bytes();
        if !stage.atoms.contains(&text) {
            stage.atoms.insert(chance.under(stage.atoms.len() + 1), text);
        }
    }
}

struct Grader<'a> {
    chance: &'a mut Chance,
    /// How often, in a hundred, a level or a side can't be read, or has no value.
    bad: usize,
    macros: Vec<(String, usize)>,
    /// How often, in a hundred, a macro is annotated.
    of_macros: usize,
    /// A name, and the same with a digit behind.
    alike: Option<(String, String)>,
}

impl Grader<'_> {
    /// The nonterminal with levels that are not refused; else with any, now and then.
    fn one_of_many(&mut self, data: &Nonterminal, is_fine: bool) -> Nonterminal {
        loop {
            let mut graded = data.clone();
            self.nonterminal(&mut graded);
            let is_refused = level_refusal(&[Item::Nonterminal(graded.clone())]).is_some();
            if !is_refused || (!is_fine && self.chance.percent(50)) {
                return graded;
            }
        }
    }

    fn nonterminal(&mut self, data: &mut Nonterminal) {
        for alternative in &mut data.alternatives {
            alternative.attributes.retain(|attribute| attribute.id != LEVEL && attribute.id != SIDE);
        }
        let is_alike = self.alike.as_ref().is_some_and(|(one, other)| [one, other].contains(&&data.name));
        let often = match data.args.len() {
            _ if is_alike => 95,
            0 => 60,
            _ => self.of_macros,
        };
        if data.alternatives.is_empty() || !self.chance.percent(often) {
            return self.not_annotated(data);
        }
        self.more_alternatives(data);
        self.occurrences(data);
        let (ladder, in_order) = (self.ladder(&data.name), self.chance.percent(60));
        for (index, alternative) in data.alternatives.iter_mut().enumerate() {
            let level = if in_order { ladder[index.min(4)] } else { self.chance.one_of(&ladder) };
            let attributes = self.attributes(index == 0, level);
            let place = self.chance.under(alternative.attributes.len() + 1);
            alternative.attributes.splice(place..place, attributes);
        }
    }

    /// Any; for two names alike often ones whose names meet.
    fn ladder(&mut self, name: &str) -> [&'static str; 5] {
        let meeting = match &self.alike {
            Some((one, _)) if one == name => LADDERS[5],
            Some((_, other)) if other == name => LADDERS[0],
            _ => return self.chance.one_of(&LADDERS),
        };
        if self.chance.percent(50) {
            meeting
        } else {
            self.chance.one_of(&LADDERS)
        }
    }

    /// The second alternative doesn't make it annotated.
    fn not_annotated(&mut self, data: &mut Nonterminal) {
        if self.chance.percent(20) {
            data.alternatives.iter_mut().skip(1).for_each(|alternative| alternative.attributes.push(self.side(false)));
        }
    }

    /// Up to five, by copies at other spans.
    fn more_alternatives(&mut self, data: &mut Nonterminal) {
        for _ in data.alternatives.len()..2 + self.chance.under(4) {
            let mut copy = self.chance.one_of(&data.alternatives);
            copy.span = Span(self.chance.under(200) as u32, self.chance.under(200) as u32);
            data.alternatives.push(copy);
        }
    }

    // ---- occurrences

    /// Leaves become the nonterminal itself, as a 20 or a 24. In a macro they can only name an argument that bears its name.
    fn occurrences(&mut self, data: &mut Nonterminal) {
        if !data.args.is_empty() && !self.argument_alike(data) {
            return;
        }
        let often = self.chance.one_of(&[20, 50, 80]);
        let name = data.name.clone();
        for alternative in &mut data.alternatives {
            if data.args.is_empty() && !self.macros.is_empty() && self.chance.percent(25) {
                alternative.symbols.push(self.call());
            }
            each_symbol(&mut alternative.symbols, &mut |symbol| {
                if symbol.kind.inner().is_empty() && !matches!(symbol.kind, Kind::Group(_)) && self.chance.percent(often) {
                    symbol.kind = if self.chance.percent(50) { Kind::Ambiguous(name.clone()) } else { Kind::Nonterminal(name.clone()) };
                }
            });
        }
    }

    /// A macro with as many literals.
    fn call(&mut self) -> Symbol {
        let span = Span(self.chance.under(200) as u32, self.chance.under(200) as u32);
        let (name, count) = self.chance.one_of(&self.macros);
        Symbol::call(name, vec![Symbol::quoted("x").at(span); count]).at(span)
    }

    /// An argument gets the macro's name, or a level's. Whether it is the macro's.
    fn argument_alike(&mut self, data: &mut Nonterminal) -> bool {
        let (index, is_same) = (self.chance.under(data.args.len()), self.chance.percent(60));
        let new = if is_same { data.name.clone() } else { format!("{}{}", data.name, self.chance.one_of(&["1", "2", "11"])) };
        let is_new = !data.args.contains(&new);
        if is_new {
            let old = data.args[index].clone();
            rename_inside(data, &old, &new);
        }
        data.args.contains(&data.name)
    }

    // ---- attributes

    /// The first alternative has a level or a side.
    fn attributes(&mut self, is_first: bool, level: &str) -> Vec<Attribute> {
        let has_level = self.chance.percent(if is_first { 85 } else { 65 });
        let has_side = (is_first && !has_level) || self.chance.percent(50);
        let mut found = vec![];
        if has_level {
            found.push(self.level(level));
        }
        if has_side {
            let side = self.side(is_first);
            found.insert(self.chance.under(found.len() + 1), side);
        }
        // one more of an id: it stays, or is the first where the alternative had none
        if self.chance.percent(12) {
            let more = if self.chance.percent(50) { self.level(level) } else { self.side(false) };
            found.push(more);
        }
        found
    }

    fn level(&mut self, level: &str) -> Attribute {
        let value = if self.chance.percent(self.bad) { self.chance.one_of(&BAD_LEVELS) } else { level };
        self.with_value(LEVEL, value)
    }

    /// On the first alternative mostly `all`, since its level is often the lowest.
    fn side(&mut self, is_first: bool) -> Attribute {
        let value = match self.chance.under(100) {
            at if at < self.bad => self.chance.one_of(&BAD_SIDES),
            0..=70 if is_first => "all",
            _ => self.chance.one_of(&SIDES),
        };
        self.with_value(SIDE, value)
    }

    /// The key is never looked at; seldom there is no value.
    fn with_value(&mut self, id: &str, value: &str) -> Attribute {
        let has_value = !(self.bad > 0 && self.chance.percent(2));
        let key = self.chance.one_of(&KEYS).to_string();
        Attribute { id: id.to_string(), equal: has_value.then(|| (key, value.to_string())) }
    }
}

/// All trees of up to `most` alternatives, each with no level or one of three, and no side or one of four.
pub fn every(most: usize) -> Vec<Stage> {
    let levels = ["", "1", "2", "3"].map(|level| if level.is_empty() { String::new() } else { format!("#[{LEVEL}(level=\"{level}\")] ") });
    let sides = [""].iter().chain(&SIDES).map(|side| if side.is_empty() { String::new() } else { format!("#[{SIDE}(side=\"{side}\")] ") });
    let sides: Vec<String> = sides.collect();
    let alternatives: Vec<String> =
        levels.iter().flat_map(|level| sides.iter().map(move |side| format!("{level}{side}E \"+\" M<<x:E>, (E)> E?"))).collect();
    let (mut all, mut last) = (vec![], vec![String::new()]);
    for _ in 0..most {
        let longer = |front: &String| alternatives.iter().map(|next| format!("{front}{next}, ")).collect::<Vec<_>>();
        last = last.iter().flat_map(longer).collect();
        all.extend(last.iter().map(|text| parse(&format!("E = {{ {text}}}; M<P, Q> = P Q;"))));
    }
    all
}
