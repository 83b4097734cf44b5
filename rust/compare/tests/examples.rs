//! The tapes in docs/examples are those of their grammars, and the program list of crates is run on one of them.
use compare::examples::{all, folder};
use reading::{listing, read};

const README: &str = include_str!("../../../README.md");
const LIST_STDIN: &[u8] = include_bytes!("../../../crates/list/stdin");
const LIST_STDOUT: &str = include_str!("../../../crates/list/stdout");

#[test]
fn the_tapes_are_of_their_grammars() {
    for (name, tape) in all() {
        assert!(std::fs::read(folder().join(name)).unwrap() == tape, "{name}: `cargo run -p compare --bin write_examples` writes it");
    }
}

/// README has the beginning of what `make run` lists.
#[test]
fn the_listing_in_readme_is_of_the_second() {
    let [_, (_, tape)] = all();
    let expanded = normalize::trees::whole(&read(&tape).unwrap(), 64, 1 << 20).unwrap();
    let said = README.split("```text\n").nth(1).and_then(|rest| rest.split("..\n```").next()).expect("a listing");
    assert!(said.lines().count() > 10 && listing(&expanded.items).starts_with(said));
}

/// It prints the same text as the second reading does.
#[test]
fn the_program_list_is_run_on_the_first() {
    let [(_, tape), _] = all();
    assert_eq!(LIST_STDIN, tape);
    let expanded = normalize::trees::whole(&read(&tape).unwrap(), 64, 1 << 20).unwrap();
    assert_eq!(listing(&expanded.items), LIST_STDOUT);
}
