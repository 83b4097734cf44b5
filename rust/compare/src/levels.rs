//! Grammars for levels, with the answers that document 01 gives, written from it: those of its cases, and others on which readings part.
//! `#"1"` is short for `#[precedence(level="1")]`, `#left` for `#[assoc(side="left")]`.
use reading::tree::*;
use reading::{parse, write, Refusal};

/// A grammar, and the one that levels make of it. Document 01's second 5 to 13 aren't asked by the call for levels alone.
pub struct Levelled {
    pub about: &'static str,
    before: Grammar,
    behind: Grammar,
}

enum Grammar {
    Text(&'static str),
    /// With bare terminals, for which LALRPOP's notation has no form.
    Built(fn() -> Stage),
}

/// A grammar that is refused; `[[` and `]]` mark the place.
pub struct Refused {
    pub about: &'static str,
    number: u8,
    marked: &'static str,
}

impl Levelled {
    pub fn stage(&self) -> Stage {
        self.before.stage()
    }

    /// The items behind, without spans.
    pub fn behind(&self) -> Vec<Item> {
        without_spans(with_kinds(self.behind.stage().items))
    }
}

impl Grammar {
    fn stage(&self) -> Stage {
        match self {
            Grammar::Text(text) => parse(&spelled(text)),
            Grammar::Built(build) => build(),
        }
    }
}

impl Refused {
    pub fn stage(&self) -> Stage {
        parse(&unmarked(&spelled(self.marked)).0)
    }

    pub fn refusal(&self) -> Refusal {
        Refusal { number: self.number, place: unmarked(&spelled(self.marked)).1.expect("marks") }
    }
}

/// A text without its marks `[[` and `]]`, and the place between them, if it has any.
pub fn unmarked(text: &str) -> (String, Option<(u64, u64)>) {
    let place = text.find("[[").zip(text.find("]]")).map(|(from, to)| (from as u64, (to - "[[".len()) as u64));
    (text.replace("[[", "").replace("]]", ""), place)
}

/// The tape of a grammar in short forms.
pub fn tape(grammar: &str) -> Vec<u8> {
    write(&parse(&spelled(grammar)))
}

/// A text with the short forms written out.
pub fn spelled(text: &str) -> String {
    let text = ["left", "right", "none", "all"]
        .iter()
        .fold(text.to_string(), |text, side| text.replace(&format!("#{side} "), &format!("#[assoc(side=\"{side}\")] ")));
    let mut parts = text.split("#\"");
    let first = parts.next().unwrap_or_default().to_string();
    parts.fold(first, |front, part| {
        let (level, rest) = part.split_once('"').expect("a level in quotes");
        format!("{front}#[precedence(level=\"{level}\")]{rest}")
    })
}

/// Names as resolving leaves them: those of declared terminals bare, all others nonterminals.
pub fn with_kinds(mut items: Vec<Item>) -> Vec<Item> {
    let terminals: Vec<String> = items.iter().filter_map(terminal).collect();
    each_symbol(&mut items, &mut |symbol| {
        if let Kind::Ambiguous(name) = &symbol.kind {
            let is_terminal = terminals.contains(name);
            symbol.kind = if is_terminal { Kind::Bare(name.clone()) } else { Kind::Nonterminal(name.clone()) };
        }
    });
    items
}

fn terminal(item: &Item) -> Option<String> {
    match item {
        Item::Extern(_, name) | Item::Match(_, name) => Some(name.clone()),
        Item::Nonterminal(_) => None,
    }
}

/// Every span 0 0.
pub fn without_spans(items: Vec<Item>) -> Vec<Item> {
    items.into_iter().map(Item::nowhere).collect()
}

fn each_symbol(items: &mut [Item], visit: &mut dyn FnMut(&mut Symbol)) {
    for item in items {
        if let Item::Nonterminal(data) = item {
            data.alternatives.iter_mut().for_each(|alternative| crate::renamed::each_symbol(&mut alternative.symbols, visit));
        }
    }
}

const fn yes(about: &'static str, before: &'static str, behind: &'static str) -> Levelled {
    Levelled { about, before: Grammar::Text(before), behind: Grammar::Text(behind) }
}

const fn no(about: &'static str, number: u8, marked: &'static str) -> Refused {
    Refused { about, number, marked }
}

fn resolved_names() -> Stage {
    let low = Alternative::new([Symbol::bare("E")]).value("precedence", "level", "1");
    let high = Alternative::new([Symbol::nonterminal("E"), Symbol::bare("E"), Symbol::name("E")]);
    let high = high.value("precedence", "level", "2").value("assoc", "side", "left");
    Stage::new([Nonterminal::new("E").alternatives([low, high]).into()])
}

/// What levels make of them.
fn levelled_names() -> Stage {
    let low = Nonterminal::new("E1").alternative(Alternative::new([Symbol::bare("E")]));
    let high = Alternative::new([Symbol::nonterminal("E"), Symbol::bare("E"), Symbol::nonterminal("E1")]);
    let high = Nonterminal::new("E").alternatives([high, Alternative::new([Symbol::nonterminal("E1")])]);
    Stage::new([low.into(), high.into()])
}

/// Document 01's own.
pub static CASES: [Levelled; 14] = [
    yes("left", r#"E = { #"1" "n", #"2" #left E "+" E };"#, r#"E1 = "n"; E = { E "+" E1, E1 };"#),
    yes("right", r#"E = { #"1" "n", #"2" #right E "+" E };"#, r#"E1 = "n"; E = { E1 "+" E, E1 };"#),
    yes("none", r#"E = { #"1" "n", #"2" #none E "+" E };"#, r#"E1 = "n"; E = { E1 "+" E1, E1 };"#),
    yes("all", r#"E = { #"1" "n", #"2" #all E "+" E };"#, r#"E1 = "n"; E = { E "+" E, E1 };"#),
    yes("all, by itself", r#"E = { #"1" "n", #"2" E "+" E };"#, r#"E1 = "n"; E = { E "+" E, E1 };"#),
    yes("right of three", r#"E = { #"1" "n", #"2" #right E "?" E ":" E };"#, r#"E1 = "n"; E = { E1 "?" E1 ":" E, E1 };"#),
    yes(
        "left, the first in a macro argument",
        r#"E = { #"1" "n", #"2" #left M<E> E }; M<P> = P;"#,
        r#"E1 = "n"; E = { M<E> E1, E1 }; M<P> = P;"#,
    ),
    yes("the empty tape", "", ""),
    yes("level `+1` is 1", r#"E = { #"+1" "n", #"2" E };"#, r#"E1 = "n"; E = { E, E1 };"#),
    yes("the highest level", r#"E = #"4294967295" "n";"#, r#"E = "n";"#),
    yes(
        "a declared E1 after E: 5 only when it is resolved again",
        r#"E = { #"1" "n", #"2" E }; E1 = "x";"#,
        r#"E1 = "n"; E = { E, E1 }; E1 = "x";"#,
    ),
    yes("a declared E1 before E", r#"E1 = "x"; E = { #"1" "n", #"2" E };"#, r#"E1 = "x"; E1 = "n"; E = { E, E1 };"#),
    yes("`assoc` all alone: level 0", r#"E = { #all "n", #"1" E "+" E };"#, r#"E0 = "n"; E = { E "+" E, E0 };"#),
    yes(
        "a macro with two levels: 10 only when it is resolved again",
        r#"S = M<"x">; M<P> = { #"1" "n", #"2" P "+" };"#,
        r#"S = M<"x">; M1<P> = "n"; M<P> = { P "+", M1 };"#,
    ),
];

pub static OTHERS: [Levelled; 28] = [
    yes("level `001` is 1", r#"E = { #"001" "n", #"2" E };"#, r#"E1 = "n"; E = { E, E1 };"#),
    yes("level `+0` is 0", r#"E = { #"+0" "n", #"2" E };"#, r#"E0 = "n"; E = { E, E0 };"#),
    yes("one level in three texts", r#"E = { #"+1" "n", #"2" E, #"001" "m", #"1" "k" };"#, r#"E1 = { "n", "m", "k" }; E = { E, E1 };"#),
    yes(
        "the two highest levels",
        r#"E = { #"4294967295" E "+", #"00000000004294967294" "n" };"#,
        r#"E4294967294 = "n"; E = { E "+", E4294967294 };"#,
    ),
    yes("one level alone has no fall-through", r#"E = { #"5" "n", E "+" E };"#, r#"E = { "n", E "+" E };"#),
    yes("the second alternative doesn't annotate", r#"E = { "n", #"1" #left E E };"#, r#"E = { "n", #"1" #left E E };"#),
    yes(
        "levels out of order",
        r#"E = { #"3" #left E "a" E, #"1" "n", #"2" #right E "b" E };"#,
        r#"E1 = "n"; E2 = { E1 "b" E2, E1 }; E = { E "a" E2, E2 };"#,
    ),
    yes("the next lower level, not one less", r#"E = { #"9" #none E, #"2" "n" };"#, r#"E2 = "n"; E = { E2, E2 };"#),
    yes(
        "level and side are inherited",
        r#"E = { #"1" "n", "m", #"2" #left E "+" E, E "-" E };"#,
        r#"E1 = { "n", "m" }; E = { E "+" E1, E "-" E1, E1 };"#,
    ),
    yes(
        "a side without a level",
        r#"E = { #"1" "n", #"2" E "a" E, #none E "b" E, E "c" E };"#,
        r#"E1 = "n"; E = { E "a" E, E1 "b" E1, E1 "c" E1, E1 };"#,
    ),
    yes(
        "a new level is `all` again, be it the same",
        r#"E = { #"1" "n", #"2" #left E "+" E, #"2" E "*" E, #"3" E "-" E };"#,
        r#"E1 = "n"; E2 = { E2 "+" E1, E2 "*" E2, E1 }; E = { E "-" E, E2 };"#,
    ),
    yes("a side before the level counts as well", r#"E = { #"1" "n", #left #"2" E "+" E };"#, r#"E1 = "n"; E = { E "+" E1, E1 };"#),
    yes("a second attribute of an id stays", r#"E = #"1" #"2" #all #left "n";"#, r#"E = #"2" #left "n";"#),
    yes("and is never read", r#"E = #"1" #"x" #all #[assoc] "n";"#, r#"E = #"x" #[assoc] "n";"#),
    yes(
        "the others stay in order",
        r#"E = { #"1" "n", #[cfg(k="v")] #right #"2" #left #"3" #[cfg] E E };"#,
        r#"E1 = "n"; E = { #[cfg(k="v")] #left #"3" #[cfg] E1 E, E1 };"#,
    ),
    yes(
        "the key is never looked at",
        r#"E = { #[precedence(side="1")] "n", #[precedence(A="2")] #[assoc(level="none")] E };"#,
        r#"E1 = "n"; E = { E1, E1 };"#,
    ),
    yes(
        "E11 made twice: 5 only when it is resolved again",
        r#"E = { #"11" "n", #"12" E "a" }; E1 = { #"1" "m", #"2" E1 "b" };"#,
        r#"E11 = "n"; E = { E "a", E11 }; E11 = "m"; E1 = { E1 "b", E11 };"#,
    ),
    yes(
        "a declared terminal E1",
        r#"E = { #"1" E1, #"2" E }; extern { enum T { E1 => E1 } }"#,
        r#"E1 = E1; E = { E, `E1` }; extern { enum T { E1 => E1 } }"#,
    ),
    yes(
        "right: the last through groups, repeats, names and macro arguments",
        r#"E = { #"1" "n", #"2" #right E M<E, (E <x:E>)> (E <E>* M<E, <y:(E "z")>>)? "z" }; M<P, Q> = P Q;"#,
        r#"E1 = "n"; E = { E1 M<E1, (E1 <x:E1>)> (E1 <E1>* M<E1, <y:(E "z")>>)? "z", E1 }; M<P, Q> = P Q;"#,
    ),
    yes(
        "right: the last in a macro argument that isn't the last",
        r#"E = { #"1" "n", #"2" #right E M<E, "x"> "y" }; M<P, Q> = P Q;"#,
        r#"E1 = "n"; E = { E1 M<E, "x"> "y", E1 }; M<P, Q> = P Q;"#,
    ),
    yes(
        "left: the first through the same",
        r#"E = { #"1" "n", #"2" #left "z" (M<<mut y:(E)+>, E> E?)* E }; M<P, Q> = P Q;"#,
        r#"E1 = "n"; E = { "z" (M<<mut y:(E)+>, E1> E1?)* E1, E1 }; M<P, Q> = P Q;"#,
    ),
    Levelled { about: "names already resolved", before: Grammar::Built(resolved_names), behind: Grammar::Built(levelled_names) },
    yes("a macro's own name stays", r#"M<P> = { #"1" "n", #"2" #none M<P> P };"#, r#"M1<P> = "n"; M<P> = { M<P> P, M1 };"#),
    yes(
        "an argument of the macro's name counts as its occurrence",
        r#"M<M> = { #"1" "n", #"2" #left M M };"#,
        r#"M1<M> = "n"; M<M> = { M M1, M1 };"#,
    ),
    yes("an argument of a level's name", r#"M<M1> = { #"1" M1, #"2" "+" M1 };"#, r#"M1<M1> = M1; M<M1> = { "+" M1, M1 };"#),
    yes(
        "flags, conditions and actions stay",
        r#"#[inline] pub M<P> = { #"1" "n" if P == "x" => a, #"2" P if P != "y" =>? b, =>@L };"#,
        r#"#[inline] pub M1<P> = "n" if P == "x" => a; #[inline] pub M<P> = { P if P != "y" =>? b, =>@L, M1 };"#,
    ),
    yes(
        "elsewhere the name means the highest level",
        r#"S = E; E = { #"1" S, #"2" S E }; T = (E S)*;"#,
        r#"S = E; E1 = S; E = { S E, E1 }; T = (E S)*;"#,
    ),
    yes(
        "items keep their order",
        r#"extern { enum T { n => N } } B = { #"2" n, #"1" "x" }; match { "m" => m } A = { #"1" m, #"2" B };"#,
        r#"extern { enum T { n => N } } B1 = "x"; B = { n, B1 }; match { "m" => m } A1 = m; A = { B, A1 };"#,
    ),
];

pub static REFUSED: [Refused; 29] = [
    no("left on the lowest level", 16, r#"E = { #"1" #left [["n"]], #"2" E "+" E };"#),
    no("right on it", 16, r#"E = { #"1" #right [["n"]], #"2" E "+" E };"#),
    no("none on it", 16, r#"E = { #"1" #none [["n"]], #"2" E "+" E };"#),
    no("a side alone is at level 0", 16, r#"E = #left [["n"]];"#),
    no("a side without a level on the lowest", 16, r#"E = { #"1" "n", #right [["m"]] };"#),
    no("the lowest is the last", 16, r#"E = { #"2" #left E E, #"1" "n", #left [["m"]], #right "k" };"#),
    no("an inherited side counts: the first is asked first", 16, r#"E = { #"1" "n", #"2" E, #"1" #none [["m"]], "k" };"#),
    no("`-1`", 14, r#"E = #"-1" [["n"]];"#),
    no("one more than a `u32`", 14, r#"E = { #"4294967295" "n", #"4294967296" [["m"]] };"#),
    no("many more", 14, r#"E = #"99999999999999999999" [["n"]];"#),
    no("the empty level", 14, r#"E = #"" [["n"]];"#),
    no("`+`", 14, r#"E = #"+" [["n"]];"#),
    no("`-0`", 14, r#"E = #"-0" [["n"]];"#),
    no("a blank behind", 14, r#"E = #"1 " [["n"]];"#),
    no("two pluses", 14, r#"E = #"++1" [["n"]];"#),
    no("a level without a value", 14, r#"E = #[precedence] [["n"]];"#),
    no("a side without a value", 15, r#"E = #[assoc] [["n"]];"#),
    no("no side", 15, r#"E = { #"1" "n", #"2" #[assoc(side="both")] [[E]] };"#),
    no("a capital", 15, r#"E = #[assoc(side="Left")] [["n"]];"#),
    no("the empty side", 15, r#"E = #[assoc(side="")] [["n"]];"#),
    no("14 before 15 of one alternative", 14, r#"E = #[assoc(side="x")] #"x" [["n"]];"#),
    no("15 before 14 of a later one", 15, r#"E = { #"1" "n", #[assoc(side="x")] [["m"]], #"x" "k" };"#),
    no("14 before 16 of an earlier one", 14, r#"E = { #left "n", #"x" [["m"]] };"#),
    no("16 before 14 of the next nonterminal", 16, r#"A = #left [["n"]]; B = #"x" "n";"#),
    no("8 before 14", 8, r#"E = #"x" "n"; A = [[Y]];"#),
    no("5 before 14", 5, r#"E = #"x" "n"; [[E]] = "m";"#),
    no("an alternative that isn't the first, of a macro", 14, r#"M<P> = { #"1" P, #"x" [[P]] };"#),
    no("13: a macro doesn't name itself", 13, r#"M<P> = { #"1" P, #"2" [[M]] };"#),
    no("10: nor as a nonterminal", 10, r#"M<P> = { #"1" P, #"2" [[`M`]] };"#),
];
