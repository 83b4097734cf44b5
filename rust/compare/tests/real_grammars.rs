//! Grammars that others wrote, where LALRPOP_CRATES names the folder of their crates: LALRPOP's parser makes the tree that rust/tape makes, the Rust
//! answers as the calls do, and docs/GRAMMARS.md says what came out.
use compare::real::{all, damaged, folder, lines, FOLDER};
use oracle::chance::Chance;
use std::io::Write;
use std::path::PathBuf;

const PAGE: &str = include_str!("../../../docs/GRAMMARS.md");
/// Of each grammar.
const COPIES: usize = 40;

/// The folder; where there is none that is said past the harness, which keeps a passed test's text to itself.
fn crates() -> Option<PathBuf> {
    let folder = folder();
    if folder.is_none() {
        let _ = writeln!(std::io::stderr(), "skipped: the grammars of docs/GRAMMARS.md ({FOLDER} names no folder of crates)");
    }
    folder
}

/// The page has lines of this crate; whatever others there are is compared, and no more.
fn is_of_the_page(line: &str) -> bool {
    line.split('/').next().is_some_and(|start| PAGE.contains(&format!("\n{start}/")))
}

#[test]
fn they_are_read_and_expanded_as_by_lalrpop() {
    let Some(folder) = crates() else { return };
    let lines = lines(&folder);
    assert!(parser::is_there() && lines.len() > 1);
    for line in lines.iter().filter(|line| is_of_the_page(line)) {
        assert!(PAGE.lines().any(|said| said == line), "docs/GRAMMARS.md doesn't say: {line}");
    }
}

/// Where both read a damaged one, too, the trees are the same, and where LALRPOP's parser alone reads it, ours says that a tape can't carry it.
#[test]
fn damaged_ones_are_read_alike() {
    let Some(folder) = crates() else { return };
    let (mut chance, mut both) = (Chance(1), 0);
    for real in all(&folder).iter().filter(|real| real.text.len() < 3_000) {
        for text in damaged(&mut chance, &real.text, COPIES) {
            match (tape::lalrpop::parse(&text), parser::parse(&text).expect("LALRPOP's parser")) {
                (Ok(ours), Ok(theirs)) => assert_eq!((ours, both += 1), (theirs, ()), "{text}"),
                (Err(no), Ok(_)) => assert!(no.what.contains("can't be carried"), "{no}\n{text}"),
                (_, Err(_)) => {}
            }
        }
    }
    assert!(both > 500, "{both}");
}
