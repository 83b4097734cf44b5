//! Tapes written out by hand, with the document's answers.
use crate::tree::*;
use crate::{
    answer, answer_and_stage, call, level_refusal, listing, parse, read, read_made, stage_lengths, work_needed, write, Refusal, Step,
};

fn atom(text: &[u8]) -> Vec<u8> {
    [&[0x01, text.len() as u8, 0][..], text].concat()
}

/// A nonterminal named by atom 0, with one alternative of so many symbols.
fn nonterminal(symbols: u8) -> Vec<u8> {
    let head = [0x10, 0, 0, 0, 0, 0, 0, 0, 0, 0, 0, 0, 0, 1, 0];
    [&head[..], &[0x12, 0, 0, 0, 0, 0, 0, 0, 0, 0, 0, 0, 0, 0, symbols, 0]].concat()
}

fn symbol(code: u8, operands: &[u8]) -> Vec<u8> {
    [&[code, 0, 0, 0, 0, 0, 0, 0, 0][..], operands].concat()
}

fn refused(tape: &[u8]) -> (u8, u64) {
    let Refusal { number, place } = read(tape).unwrap_err();
    assert_eq!(place.0, place.1);
    (number, place.0)
}

#[test]
fn a_tape_may_end_between_items_only() {
    assert_eq!(read(&[]), Ok(Stage::default()));
    assert_eq!(read(&atom(b"A")).unwrap().atoms, [b"A"]);
    let tape = [atom(b"A"), nonterminal(1)].concat();
    assert_eq!(refused(&tape), (2, 35));
    assert_eq!(refused(&tape[..34]), (2, 19));
    assert_eq!(refused(&tape[..19]), (2, 19));
    assert_eq!(refused(&tape[..3]), (2, 0));
}

#[test]
fn commands_stand_in_their_places() {
    let tape = [atom(b"A"), nonterminal(0), atom(b"B")].concat();
    assert_eq!(refused(&tape), (2, 35));
    assert_eq!(refused(&[atom(b"A"), symbol(0x20, &[0, 0])].concat()), (2, 4));
    assert_eq!(refused(&[0xff]), (2, 0));
}

#[test]
fn operands_are_defined_and_atoms_new() {
    assert_eq!(refused(&[atom(b"A"), atom(b"A")].concat()), (3, 4));
    assert_eq!(refused(&[atom(b"A"), symbol(0x30, &[1, 0])].concat()), (3, 4));
    let repeat = |op| [atom(b"A"), nonterminal(1), symbol(0x26, &[op]), symbol(0x2c, &[])].concat();
    assert!(read(&repeat(2)).is_ok());
    assert_eq!(refused(&repeat(3)), (3, 35));
    let call = [atom(b"A"), nonterminal(1), symbol(0x25, &[0, 0, 0])].concat();
    assert_eq!(refused(&call), (3, 35));
}

#[test]
fn symbols_nest_64_deep() {
    let tower = |chosen: usize| [atom(b"A"), nonterminal(1), symbol(0x27, &[]).repeat(chosen), symbol(0x2a, &[])].concat();
    assert!(read(&tower(63)).is_ok());
    assert_eq!(refused(&tower(64)), (3, 35 + 64 * 9));
    // cut off, it is 2 first
    let cut = tower(64);
    assert_eq!(refused(&cut[..cut.len() - 1]), (2, 35 + 64 * 9));
}

#[test]
fn names_suit_their_use() {
    let declared = |text: &[u8]| [atom(text), symbol(0x31, &[0, 0])].concat();
    for good in [&b"_"[..], b"aZ_9", b"mutt", b"Error"] {
        assert!(read(&declared(good)).is_ok());
    }
    for bad in [&b""[..], b"9a", b"a-b", b"mut", b"error", b"\xc3\xa9", b"a\x00"] {
        assert_eq!(refused(&declared(bad)), (4, 3 + bad.len() as u64));
    }
    let quoted = |text: &[u8]| [atom(b"A"), atom(text), nonterminal(1), symbol(0x22, &[1, 0])].concat();
    assert!(read(&quoted(b" ~")).is_ok());
    assert_eq!(refused(&quoted(b"\x1f")), (4, 39));
    assert_eq!(refused(&quoted(b"\x7f")), (4, 39));
}

/// Unused atoms stay in front; new texts follow in the order of the operands.
#[test]
fn what_is_written_is_read_back() {
    let symbol = Symbol::name("P").at(Span(9, 8)).mutable("n").at(Span(3, 4));
    let alternative = Alternative::new([symbol]).value("cfg", "k", "v").unless("P", "x").action(Action::Fallible("f".into()));
    let item = Nonterminal::new("M").inline().arg("P").alternative(alternative.at(Span(u32::MAX, 0))).at(Span(0, 70_000));
    let stage = Stage { atoms: vec![b"\xff".to_vec()], ..Stage::new([item.into(), Item::matched("t")]) };
    let back = read(&write(&stage)).unwrap();
    assert_eq!(back.items, stage.items);
    assert_eq!(back.atoms, [&b"\xff"[..], b"M", b"P", b"f", b"cfg", b"k", b"v", b"x", b"n", b"t"]);
}

#[test]
fn sizes_come_last_and_work_first() {
    let tape = atom(b"A");
    let same = |stage: &Stage| Some(Ok(stage.clone()));
    let number = |output, work| call(&tape, output, work, same).unwrap().map_err(|refusal| refusal.number);
    assert_eq!(number(4, 63), Err(1));
    assert_eq!(number(4, 64), Ok(tape.clone()));
    assert_eq!(number(3, 64), Err(21));
    let many: Vec<u8> = (0..65_537u32).flat_map(|k| atom(format!("{k}").as_bytes())).collect();
    let answer = call(&many, 0, usize::MAX, same).unwrap();
    assert_eq!(answer, Err(Refusal { number: 20, place: (0, 0) }));
}

/// The refusal of levels and the text at its place.
fn level_refused(grammar: &str) -> Option<(u8, &str)> {
    let refusal = level_refusal(&parse(grammar).items)?;
    Some((refusal.number, &grammar[refusal.place.0 as usize..refusal.place.1 as usize]))
}

#[test]
fn levels_are_asked_in_order() {
    assert_eq!(level_refused(r#"E = { #[precedence(level="+1")] "n", #[assoc(side="all")] E };"#), None);
    assert_eq!(level_refused(r#"E = { "n", #[precedence(level="x")] E };"#), None);
    assert_eq!(level_refused(r#"E = #[assoc(side="x")] #[precedence(level="++1")] "n";"#).unwrap().0, 14);
    assert_eq!(level_refused(r#"E = #[precedence] "n";"#).unwrap().0, 14);
    assert_eq!(level_refused(r#"E = #[assoc] "n";"#).unwrap().0, 15);
    let two = r#"E = { #[precedence(level="2")] #[assoc(side="left")] E E, #[precedence(level="1")] "n", #[assoc(side="none")] "m" };"#;
    assert_eq!(level_refused(two), Some((16, r#""m""#)));
    // a side does not outlast a new level
    assert_eq!(level_refused(r#"E = { #[precedence(level="2")] #[assoc(side="left")] E, #[precedence(level="1")] "n", "m" };"#), None);
}

/// Stages as they finish: the second names a new text, the third refers to it first.
#[test]
fn stages_keep_the_atoms_before() {
    let tape = write(&parse(r#"A = "x";"#));
    let items = |grammar: &str| Step::Finished(parse(grammar).items);
    let refused = Refusal { number: 18, place: (7, 8) };
    let steps = vec![items(r#"A = "x";"#), items(r#"A = "x"; B1 = "y";"#), items(r#"C1 = "z"; B1 = "y";"#)];
    let lengths = stage_lengths(read(&tape).unwrap().atoms, &steps);
    let ask = |output, steps: Vec<Step>| answer_and_stage(&tape, output, work_needed(tape.len(), output), |_| Some(steps.clone())).unwrap();
    let (tree, _) = ask(lengths[2].max(lengths[1]), steps.clone());
    let atoms = [atom(b"A"), atom(b"x"), atom(b"B1"), atom(b"y"), atom(b"C1"), atom(b"z")].concat();
    assert!(tree.unwrap().starts_with(&atoms));
    let (outgrown, too_long) = ask(lengths[1] - 1, steps.clone());
    assert_eq!((outgrown.unwrap_err().number, too_long.len()), (21, lengths[1]));
    assert_eq!(ask(tape.len(), vec![steps[0].clone(), Step::Refused(refused)]).0, Err(refused));
    assert_eq!(answer(&tape, 9, work_needed(tape.len(), 9) - 1, |_| None), Some(Err(Refusal { number: 1, place: (0, 0) })));
}

/// Document 01's printed forms and the listing's lines.
#[test]
fn a_tree_is_listed() {
    let grammar = r#"#[inline] pub S = { M<n, "a\\b"> (r"z" <n>) <v:n*> <mut w:@L> @R ! => t, =>? f }; M<P, Q> = { P =>@L, =>@R }; extern { enum T { n => N } }"#;
    let mut items = parse(grammar).items;
    let Item::Nonterminal(first) = &mut items[0] else { panic!("{items:?}") };
    // LALRPOP's notation has no form for it
    first.alternatives.push(Alternative::new([]));
    let lines = [
        "S 14-15 pub inline",
        r##"  M<n, "a\\b"> (r#"z"# <n>) v:n* mut w:@L @R error => t"##,
        "   =>? f",
        "  ",
        "M 82-89",
        "  P => @L",
        "   => @R",
    ];
    assert_eq!(listing(&items).lines().collect::<Vec<_>>(), lines);
}

/// A name that question 4 refuses is read where a call made it.
#[test]
fn a_made_name_is_read() {
    let tree = write(&Stage::new([Item::Extern(Span(0, 0), "n*".into())]));
    assert_eq!(read(&tree).unwrap_err().number, 4);
    assert_eq!(read_made(&tree).unwrap().items, [Item::Extern(Span(0, 0), "n*".into())]);
}
