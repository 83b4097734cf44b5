//! The chosen grammars for levels: each answered by us and by the Rust as document 01 says, and LALRPOP's own unit tests of precedence.
use compare::grammars::PRECEDENCE;
use compare::levels::{with_kinds, without_spans, Levelled, CASES, OTHERS, REFUSED};
use compare::the_rust_is_there;
use normalize::{levels, work_len};
use oracle::{staged, Call};
use reading::tree::{Item, Span, Stage};
use reading::{parse, read, write, Refusal, Step};

/// The tree that our call makes.
fn tree(stage: &Stage) -> Result<Vec<u8>, Refusal> {
    let tape = write(stage);
    let mut output = vec![0; 4 * tape.len()];
    let mut work = vec![0; work_len(tape.len(), output.len())];
    let length = levels(&tape, &mut output, &mut work)?;
    output.truncate(length);
    Ok(output)
}

fn ours(stage: &Stage) -> Result<Vec<Item>, Refusal> {
    tree(stage).map(|tree| read(&tree).expect("a tree that can be read").items)
}

/// The Rust's answer, where it is there.
fn theirs(stage: &Stage) -> Option<Result<Vec<Item>, Refusal>> {
    oracle::panics_are_answers();
    match staged(stage, Call::Levels, 0)?.pop().expect("a stage or a refusal") {
        Step::Finished(items) => Some(Ok(items)),
        Step::Refused(refusal) => Some(Err(refusal)),
    }
}

fn levelled() -> impl Iterator<Item = &'static Levelled> {
    CASES.iter().chain(&OTHERS)
}

#[test]
fn trees_are_as_document_01_says() {
    the_rust_is_there(CASES.len() + OTHERS.len());
    for case in levelled() {
        assert_eq!(ours(&case.stage()).map(without_spans), Ok(case.behind()), "{}", case.about);
        if let Some(theirs) = theirs(&case.stage()) {
            assert_eq!(theirs.map(without_spans), Ok(case.behind()), "the Rust: {}", case.about);
        }
    }
}

#[test]
fn refusals_are_as_document_01_says() {
    the_rust_is_there(REFUSED.len());
    for case in &REFUSED {
        assert_eq!(ours(&case.stage()), Err(case.refusal()), "{}", case.about);
        if let Some(theirs) = theirs(&case.stage()) {
            assert_eq!(theirs, Err(case.refusal()), "the Rust: {}", case.about);
        }
    }
}

/// What stands before levels becomes what the unit test waits for.
#[test]
fn unit_tests_of_precedence() {
    the_rust_is_there(PRECEDENCE.len() / 2);
    for pair in PRECEDENCE.chunks(2) {
        let behind = without_spans(with_kinds(pair[1].stage().items));
        assert_eq!(ours(&pair[0].stage()).map(without_spans), Ok(behind.clone()), "{}", pair[0].about);
        if let Some(theirs) = theirs(&pair[0].stage()) {
            assert_eq!(theirs.map(without_spans), Ok(behind), "the Rust: {}", pair[0].about);
        }
    }
}

const TWO_LEVELS: &str = r#"E = { #[precedence(level="1")] "n", #[precedence(level="2")] #[assoc(side="left")] E "+" E };"#;

/// The items and the fall-through with its symbol have the nonterminal's span; all else keeps its own.
#[test]
fn spans_of_two_levels() {
    let items = ours(&parse(TWO_LEVELS)).unwrap();
    let [Item::Nonterminal(low), Item::Nonterminal(high)] = &items[..] else { panic!("{items:?}") };
    let [sum, fall] = &high.alternatives[..] else { panic!("{high:?}") };
    assert_eq!([low.span, high.span, fall.span, fall.symbols[0].span], [Span(0, 1); 4]);
    let at = |text: &str| TWO_LEVELS.find(text).unwrap() as u32;
    assert_eq!(low.alternatives[0].span, Span(at("\"n"), at(", #")));
    assert_eq!(sum.span, Span(at("E \"+"), at(" }")));
    assert_eq!(sum.symbols[2].span, Span(at(" }") - 1, at(" }")));
}

/// The tape's atoms, then E1, behind them the items.
#[test]
fn a_new_name_stands_behind_the_atoms() {
    let (tape, tree) = (write(&parse(TWO_LEVELS)), tree(&parse(TWO_LEVELS)).unwrap());
    let items = tape.len() - tape.iter().rev().position(|&byte| byte == b'+').unwrap();
    assert_eq!(tree[..items], tape[..items]);
    assert_eq!(tree[items..items + 5], *b"\x01\x02\x00E1");
    assert_eq!(tree[items + 5], 0x10);
}

/// It isn't written twice, whatever the atom is for.
#[test]
fn a_name_that_is_an_atom_is_used_again() {
    let used = parse(&TWO_LEVELS.replace("\"n\"", "\"E1\""));
    let unused = Stage { atoms: vec![b"E1".to_vec()], items: parse(TWO_LEVELS).items };
    let elsewhere = Stage { atoms: vec![b"x".to_vec(), b"E1".to_vec(), b"E".to_vec()], items: parse(TWO_LEVELS).items };
    for stage in [used, unused, elsewhere] {
        let (before, behind) = (read(&write(&stage)).unwrap(), read(&tree(&stage).unwrap()).unwrap());
        assert_eq!(behind.atoms, before.atoms);
        let Item::Nonterminal(low) = &behind.items[0] else { panic!("{:?}", behind.items) };
        assert_eq!(low.name, "E1");
    }
}

/// Made by two nonterminals, it is one atom.
#[test]
fn a_name_made_twice_is_one_atom() {
    let case = OTHERS.iter().find(|case| case.about.starts_with("E11 made twice")).unwrap();
    let atoms = read(&tree(&case.stage()).unwrap()).unwrap().atoms;
    assert_eq!(atoms.iter().filter(|text| *text == b"E11").count(), 1);
    assert_eq!(atoms.last().unwrap(), b"E11");
}
