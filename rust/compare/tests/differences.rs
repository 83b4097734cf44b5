//! The smallest inputs of docs/DIFFERENCES.md: what the Rust does with each, and what of ours is in code.
use compare::the_rust_is_there;
use normalize::{levels, macros, resolve, work_len};
use oracle::{expand, Expanded};
use reading::tree::{Alternative, Nonterminal, Repeat, Stage, Symbol};
use reading::{parse, read, within_operands, write, Refusal};

const TWO_LEVELS: &str = r#"E = { #[precedence(level="1")] "n", #[precedence(level="2")] E "+" E };"#;

fn panicked(grammar: &str, limit: u16) -> String {
    let expanded = expand(&parse(grammar), limit).unwrap();
    let Expanded::Panicked(message) = expanded else { panic!("{grammar}: {expanded:?}") };
    message
}

/// The refusal of a grammar, and the text at its place.
fn refused(grammar: &str, limit: u16) -> (u8, &str) {
    let expanded = expand(&parse(grammar), limit).unwrap();
    let Expanded::Refused(Refusal { number, place }) = expanded else { panic!("{grammar}: {expanded:?}") };
    (number, &grammar[place.0 as usize..place.1 as usize])
}

/// What our call for macros makes of a tree, or its refusal.
fn expanded(stage: &Stage, limit: u16, output: usize) -> Result<Vec<u8>, (u8, (u64, u64))> {
    let (tape, mut output) = (write(stage), vec![0; output]);
    let mut work = vec![0; work_len(tape.len(), output.len())];
    let length = macros(&tape, limit, &mut output, &mut work).map_err(|refusal| (refusal.number, refusal.place))?;
    output.truncate(length);
    Ok(output)
}

#[test]
fn levels_and_sides_that_cannot_be_read_are_panics() {
    if !the_rust_is_there(5) {
        return;
    }
    assert!(panicked(r#"E = #[precedence(level="x")] "n";"#, 9).contains("ParseIntError"));
    assert!(panicked(r#"E = #[precedence] "n";"#, 9).contains("`None` value"));
    assert!(panicked(r#"E = #[assoc(side="x")] "n";"#, 9).contains("ParseAssocError"));
    assert!(panicked(r#"E = #[assoc] "n";"#, 9).contains("`None` value"));
    assert!(panicked(r#"E = #[assoc(side="left")] "n";"#, 9).contains("unexpected associativity attribute on the first precedence level"));
}

/// In ours they are refusals, at the alternative; and where the call for levels is given no room, it is 21 first.
#[test]
fn levels_and_sides_that_cannot_be_read_are_refused() {
    let grammars = [
        (r#"E = #[precedence(level="x")] "n";"#, 14),
        (r#"E = #[precedence] "n";"#, 14),
        (r#"E = #[assoc(side="x")] "n";"#, 15),
        (r#"E = #[assoc] "n";"#, 15),
        (r#"E = #[assoc(side="left")] "n";"#, 16),
    ];
    for (grammar, number) in grammars {
        let (tape, span) = (write(&parse(grammar)), (grammar.len() as u64 - 4, grammar.len() as u64 - 1));
        let mut work = vec![0; work_len(tape.len(), tape.len())];
        let no = |number, place| Err(Refusal { number, place });
        assert_eq!(levels(&tape, &mut vec![0; tape.len()], &mut work), no(number, span), "{grammar}");
        assert_eq!(levels(&tape, &mut vec![0; tape.len() - 1], &mut work), no(21, (0, 0)), "{grammar}");
    }
}

#[test]
fn a_made_name_meets_another() {
    if !the_rust_is_there(4) {
        return;
    }
    assert_eq!(refused(&format!(r#"{TWO_LEVELS} E1 = "x";"#), 9), (5, "E1"));
    assert_eq!(refused(&format!(r#"E1 = "x"; {TWO_LEVELS}"#), 9), (5, "E"));
    assert_eq!(refused(&format!("{TWO_LEVELS} extern {{ enum T {{ E1 => E1 }} }}"), 9), (6, "E1 => E1 "));
    let both = r#"E = { #[precedence(level="11")] "n", #[precedence(level="12")] "m" }; E1 = { #[precedence(level="1")] "n", #[precedence(level="2")] "m" };"#;
    assert_eq!(refused(both, 9), (5, "E1"));
}

/// An atom that nothing used becomes the made name: it isn't written twice.
#[test]
fn an_unused_atom_becomes_a_made_name() {
    let mut stage = parse("L = n*; extern { enum T { n => N } }");
    stage.atoms = vec![b"n*".to_vec()];
    let is_used_again = |tape: &[u8]| tape.windows(5).filter(|part| part == b"\x01\x02\x00n*").count() == 1 && tape[4] == b'*';
    assert!(is_used_again(&expanded(&stage, 2, 999).unwrap()));
    if the_rust_is_there(1) {
        let Some(Expanded::Tree(tree)) = expand(&stage, 2) else { panic!("a tree") };
        assert!(is_used_again(&write(&tree)));
    }
}

#[test]
fn the_star_needs_two_rounds() {
    let star = parse("L = n*; extern { enum T { n => N } }");
    assert_eq!(expanded(&star, 1, 999), Err((18, (4, 6))));
    assert!(expanded(&star, 2, 999).is_ok());
    if the_rust_is_there(2) {
        assert_eq!(refused("L = n*; extern { enum T { n => N } }", 1), (18, "n*"));
        assert!(matches!(expand(&star, 2), Some(Expanded::Tree(_))));
    }
}

/// A counter of 16 bits in macros, one call for each bit that is looked at: some 131,000 rounds, all with short names.
fn counter() -> String {
    let bits: Vec<String> = (0..16).map(|bit| format!("B{bit}")).collect();
    let with = |bit: usize, value: &str| {
        let mut arguments = bits.clone();
        arguments[bit] = format!("\"{value}\"");
        arguments.join(", ")
    };
    let step = |bit: usize| {
        let (one, zero) = (with(bit, "1"), with(bit, "0"));
        format!("I{bit}<{}> = {{ I0<{one}> if B{bit} == \"0\", I{}<{zero}> if B{bit} == \"1\" }};\n", bits.join(", "), bit + 1)
    };
    let steps: String = (0..16).map(step).collect();
    format!("S = I0<{}>;\n{steps}I16<{}> = \"end\";", ["\"0\""; 16].join(", "), bits.join(", "))
}

/// The Rust counts rounds in 16 bits, so at the highest limit it never says 18: the count overflows, which this build's checks turn into a panic.
#[test]
fn the_count_of_rounds_overflows() {
    if !the_rust_is_there(2) {
        return;
    }
    let grammar = counter();
    let (number, call) = refused(&grammar, u16::MAX - 1);
    assert_eq!((number, &call[..1]), (18, "I"));
    match expand(&parse(&grammar), u16::MAX).unwrap() {
        Expanded::Panicked(message) => assert!(cfg!(debug_assertions) && message.contains("add with overflow"), "{message}"),
        Expanded::Tree(tree) => assert!(!cfg!(debug_assertions) && tree.items.len() > 65_536),
        Expanded::Refused(refusal) => panic!("{refusal:?}"),
    }
}

/// Ours doesn't overflow: the tape has 37 texts and each round makes one, so that there are 65,537 before the rounds are over.
#[test]
fn the_atoms_end_before_the_rounds() {
    let (grammar, output) = (counter(), 12_000_000);
    let stage = parse(&grammar);
    let [fits, over, most] = [65_499, 65_500, u16::MAX].map(|limit| expanded(&stage, limit, output).unwrap_err());
    assert_eq!((over, most), ((20, (0, 0)), (20, (0, 0))));
    assert_eq!(fits.0, 18);
    if the_rust_is_there(1) {
        let (number, call) = refused(&grammar, 65_499);
        assert_eq!((number, call), (18, &grammar[fits.1 .0 as usize..fits.1 .1 as usize]));
    }
}

/// So many choices around `n`, and a star around them.
fn starred(choices: usize) -> String {
    format!("L = {}n{}*; extern {{ enum T {{ n => N }} }}", "<".repeat(choices), ">".repeat(choices))
}

/// The star and 62 choices around `n` are 64 deep; `v:X+` in the star's item is 65 deep, which no tape carries.
#[test]
fn a_star_around_the_deepest_symbol_grows() {
    let stage = parse(&starred(62));
    assert_eq!(read(&write(&stage)).map(|read| read.items), Ok(stage.items.clone()));
    let deeper = |symbol: Symbol| Stage::new([Nonterminal::new("L").alternative(Alternative::new([symbol])).into()]);
    let around = |choices| (0..choices).fold(Symbol::name("n"), |symbol, _| symbol.chosen());
    assert_eq!(read(&write(&deeper(around(63).repeated(Repeat::Star)))).unwrap_err().number, 3);
    let item = deeper(around(62).repeated(Repeat::Plus).named("v"));
    assert!(within_operands(&stage) && !within_operands(&item));
    assert_eq!(expanded(&stage, 2, 9_999), Err((20, (0, 0))));
    assert!(expanded(&parse(&starred(61)), 2, 9_999).is_ok());
    if the_rust_is_there(1) {
        assert!(matches!(expand(&stage, 2), Some(Expanded::Tree(tree)) if tree.items.len() == 4));
    }
}

/// The smallest tapes that our own questions refuse: an empty atom, and no command.
#[test]
fn buffers_too_short_and_no_command() {
    let no = |number| Err(Refusal { number, place: (0, 0) });
    let (tape, mut work) = ([0x01, 0, 0], vec![0; work_len(3, 3)]);
    assert_eq!(resolve(&tape, &mut [0; 2], &mut work), no(21));
    assert_eq!(resolve(&tape, &mut [0; 3], &mut work), Ok(3));
    assert_eq!(resolve(&tape, &mut [], &mut work[..23]), no(1));
    assert_eq!(resolve(&tape, &mut [], &mut work[..24]), no(21));
    assert_eq!(resolve(&[0x00], &mut [], &mut work), no(2));
}
