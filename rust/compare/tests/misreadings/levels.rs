//! Levels written once more behind the Rust's resolving, with one misreading at a time.
use crate::{agrees, each_shows, no};
use compare::case::Case;
use compare::grow::Size;
use compare::ladders::{graded, LEVEL, SIDE};
use oracle::chance::Chance;
use oracle::Call;
use reading::tree::*;
use reading::{Refusal, Step};

misreadings! {
    /// Any alternative's attribute makes a nonterminal annotated.
    AnyAnnotates,
    /// The last attribute of an id is taken.
    LastTaken,
    /// All attributes of an id are removed.
    AllRemoved,
    /// `assoc` survives a new `precedence`.
    SideSurvives,
    LevelNotInherited,
    SideNotInherited,
    /// No plus before a level.
    NoPlus,
    /// A level is read without the blanks around it.
    Trimmed,
    /// 4294967296 is 0.
    Wraps,
    SideAskedFirst,
    /// 16 at the nonterminal's span.
    SixteenAtItem,
    /// 16 after every other nonterminal's 14 and 15.
    SixteenLast,
    /// The lower level is one less.
    OneLess,
    /// The lower level is the one of the group before in the tape.
    LowerAsWritten,
    LowestKeepsName,
    /// The name has the text of the level.
    TextInName,
    /// The first occurrence under `right`.
    RightIsFirst,
    /// Macro arguments walked forward under `right`.
    ArgumentsForward,
    NotInArguments,
    NotInRepeats,
    /// A macro's own name is replaced.
    CallReplaced,
    NoneIsAll,
    /// The fall-through has the last alternative's span.
    FallThroughSpan,
    FallThroughFirst,
    /// Only the highest level is pub or inline.
    FlagsOfHighest,
}

struct Graded {
    level: u32,
    /// As it is written.
    text: String,
    side: String,
    alternative: Alternative,
}

struct Model {
    misreading: Misreading,
    /// A 16 that waits.
    late: Option<Refusal>,
}

fn levels(items: &[Item], misreading: Misreading) -> Result<Vec<Item>, Refusal> {
    let mut model = Model { misreading, late: None };
    let mut done = vec![];
    for item in items {
        match item {
            Item::Nonterminal(data) if model.is_annotated(data) => done.extend(model.nonterminal(data)?),
            other => done.push(other.clone()),
        }
    }
    model.late.map_or(Ok(done), Err)
}

impl Model {
    fn is(&self, misreading: Misreading) -> bool {
        self.misreading == misreading
    }

    fn is_annotated(&self, data: &Nonterminal) -> bool {
        let most = if self.is(AnyAnnotates) { usize::MAX } else { 1 };
        let has = |alternative: &Alternative| alternative.attributes.iter().any(|attribute| attribute.id == LEVEL || attribute.id == SIDE);
        data.alternatives.iter().take(most).any(has)
    }

    // ---- first the level, then the side

    fn taken(&self, alternative: &mut Alternative, id: &str) -> Option<Option<String>> {
        let mut places = alternative.attributes.iter().enumerate().filter(|(_, attribute)| attribute.id == id).map(|(place, _)| place);
        let place = if self.is(LastTaken) { places.next_back() } else { places.next() }?;
        let attribute = alternative.attributes.remove(place);
        if self.is(AllRemoved) {
            alternative.attributes.retain(|attribute| attribute.id != id);
        }
        Some(attribute.equal.map(|(_, value)| value))
    }

    fn level(&self, text: &str) -> Option<u32> {
        match text {
            _ if self.is(NoPlus) && text.starts_with('+') => None,
            _ if self.is(Trimmed) => text.trim().parse().ok(),
            "4294967296" if self.is(Wraps) => Some(0),
            _ => text.parse().ok(),
        }
    }

    fn graded(&self, data: &Nonterminal) -> Result<Vec<Graded>, Refusal> {
        let (mut level, mut text, mut side) = (0, "0".to_string(), "all".to_string());
        let mut all = vec![];
        for alternative in &data.alternatives {
            let mut alternative = alternative.clone();
            let (new_level, new_side) = (self.taken(&mut alternative, LEVEL), self.taken(&mut alternative, SIDE));
            let is_side = |side: &String| ["left", "right", "none", "all"].contains(&side.as_str());
            let side_is_bad = new_side.as_ref().is_some_and(|value| !value.as_ref().is_some_and(is_side));
            if side_is_bad && self.is(SideAskedFirst) {
                return no(15, alternative.span);
            }
            match new_level {
                Some(value) => {
                    text = value.unwrap_or_default();
                    let Some(read) = self.level(&text) else { return no(14, alternative.span) };
                    level = read;
                    side = if self.is(SideSurvives) { side } else { "all".to_string() };
                }
                None if self.is(LevelNotInherited) => (level, text) = (0, "0".to_string()),
                None => {}
            }
            if side_is_bad {
                return no(15, alternative.span);
            }
            side = match new_side.flatten() {
                Some(new) => new,
                None if self.is(SideNotInherited) => "all".to_string(),
                None => side,
            };
            all.push(Graded { level, text: text.clone(), side: side.clone(), alternative });
        }
        Ok(all)
    }

    // ---- then the groups

    fn nonterminal(&mut self, data: &Nonterminal) -> Result<Vec<Item>, Refusal> {
        let graded = self.graded(data)?;
        let mut levels: Vec<u32> = graded.iter().map(|it| it.level).collect();
        levels.sort();
        levels.dedup();
        let wrong = graded.iter().find(|it| it.level == levels[0] && it.side != "all");
        if let Some(wrong) = wrong {
            let span = if self.is(SixteenAtItem) { data.span } else { wrong.alternative.span };
            let refused = no(16, span);
            if !self.is(SixteenLast) {
                return refused;
            }
            self.late = self.late.or(refused.err());
        }
        Ok((0..levels.len()).map(|index| self.group(data, &graded, &levels, index)).collect())
    }

    fn name(&self, data: &Nonterminal, graded: &[Graded], levels: &[u32], index: usize) -> String {
        let keeps = if self.is(LowestKeepsName) { 0 } else { levels.len() - 1 };
        let of_level = graded.iter().find(|it| it.level == levels[index]).unwrap();
        match index {
            _ if index == keeps => data.name.clone(),
            _ if self.is(TextInName) => format!("{}{}", data.name, of_level.text),
            _ => format!("{}{}", data.name, levels[index]),
        }
    }

    fn lower(&self, data: &Nonterminal, graded: &[Graded], levels: &[u32], index: usize) -> Option<String> {
        let below = index.checked_sub(1)?;
        let mut written: Vec<u32> = graded.iter().map(|it| it.level).collect();
        written.dedup();
        let before = written.iter().position(|level| *level == levels[index]).and_then(|place| place.checked_sub(1));
        match before {
            _ if self.is(OneLess) => Some(format!("{}{}", data.name, levels[index] - 1)),
            Some(place) if self.is(LowerAsWritten) => Some(format!("{}{}", data.name, written[place])),
            _ => Some(self.name(data, graded, levels, below)),
        }
    }

    fn group(&self, data: &Nonterminal, graded: &[Graded], levels: &[u32], index: usize) -> Item {
        let (name, lower) = (self.name(data, graded, levels, index), self.lower(data, graded, levels, index));
        let of_level = graded.iter().filter(|it| it.level == levels[index]);
        let mut alternatives: Vec<Alternative> = of_level.map(|it| self.substituted(it, &data.name, &name, lower.as_ref())).collect();
        if let Some(lower) = lower {
            let span = if self.is(FallThroughSpan) { alternatives[alternatives.len() - 1].span } else { data.span };
            let fall = Alternative::new([Symbol::nonterminal(lower).at(span)]).at(span);
            alternatives.insert(if self.is(FallThroughFirst) { 0 } else { alternatives.len() }, fall);
        }
        let flags = !self.is(FlagsOfHighest) || index + 1 == levels.len();
        let (public, inline) = (data.public && flags, data.inline && flags);
        Item::Nonterminal(Nonterminal { name, public, inline, alternatives, ..data.clone() })
    }

    // ---- then substitution

    fn substituted(&self, it: &Graded, old: &str, name: &String, lower: Option<&String>) -> Alternative {
        let lower = lower.unwrap_or(name);
        let (first, others) = match it.side.as_str() {
            "none" if self.is(NoneIsAll) => (name, name),
            "left" | "right" => (name, lower),
            "none" => (lower, lower),
            _ => (name, name),
        };
        let mut put_in = PutIn { model: self, old, first: Some(first), others, backward: it.side == "right" && !self.is(RightIsFirst) };
        let mut alternative = it.alternative.clone();
        put_in.list(&mut alternative.symbols, true);
        alternative
    }
}

/// Names that are put in for a nonterminal's: one first, then others.
struct PutIn<'a> {
    model: &'a Model,
    old: &'a str,
    first: Option<&'a String>,
    others: &'a String,
    backward: bool,
}

impl PutIn<'_> {
    fn list(&mut self, symbols: &mut [Symbol], turns: bool) {
        if self.backward && turns {
            symbols.iter_mut().rev().for_each(|symbol| self.symbol(symbol));
        } else {
            symbols.iter_mut().for_each(|symbol| self.symbol(symbol));
        }
    }

    fn symbol(&mut self, symbol: &mut Symbol) {
        match &mut symbol.kind {
            Kind::Nonterminal(name) if name == self.old => *name = self.first.take().unwrap_or(self.others).clone(),
            Kind::Macro(name, args) => {
                if self.model.is(CallReplaced) && name == self.old {
                    *name = self.first.take().unwrap_or(self.others).clone();
                }
                if !self.model.is(NotInArguments) {
                    self.list(args, !self.model.is(ArgumentsForward));
                }
            }
            Kind::Group(inner) => self.list(inner, true),
            Kind::Repeat(..) if self.model.is(NotInRepeats) => {}
            Kind::Repeat(_, inner) | Kind::Choose(inner) | Kind::Name { inner, .. } => self.symbol(inner),
            _ => {}
        }
    }
}

/// The Rust's resolved tree, and the model's levels.
fn steps(stage: &Stage, misreading: Misreading) -> Option<Vec<Step>> {
    let resolved = match oracle::resolve(stage)? {
        Ok(resolved) => resolved.items,
        Err(refusal) => return Some(vec![Step::Refused(refusal)]),
    };
    let levelled = levels(&resolved, misreading).map_or_else(Step::Refused, Step::Finished);
    Some(vec![Step::Finished(resolved), levelled])
}

fn differing(cases: &[Case], misreading: Misreading) -> usize {
    crate::differing(cases, Call::Levels, usize::MAX, |tape, _, output, work| {
        reading::answer(tape, output, work, |stage| steps(stage, misreading)).unwrap()
    })
}

/// Small trees, none damaged, with much room.
fn cases() -> Vec<Case> {
    let mut chance = Chance(13);
    (0..3_000).map(|_| Case::roomy(reading::write(&graded(&mut chance, Size::Few)))).collect()
}

#[test]
fn the_model_itself_agrees() {
    agrees(|| differing(&cases(), Nothing));
}

#[test]
fn every_misreading_shows() {
    each_shows(ALL, cases, differing);
}
