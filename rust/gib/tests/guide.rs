//! docs/GUIDE.md says what the program says.
use std::path::Path;
use std::process::Command;

const GUIDE: &str = include_str!("../../../docs/GUIDE.md");
const QUERY: &str = include_str!("../../../docs/examples/query.lalrpop");

/// The page's blocks of a kind.
fn blocks(kind: &str) -> Vec<&'static str> {
    let behind = format!("```{kind}\n");
    GUIDE.split(&behind).skip(1).map(|rest| rest.split("```").next().expect("an end")).collect()
}

#[test]
fn each_answer_is_the_programs() {
    let top = Path::new(env!("CARGO_MANIFEST_DIR")).ancestors().nth(2).expect("the repository");
    let asked = blocks("console");
    assert_eq!(asked.len(), 5);
    for block in asked {
        let (command, answer) = block.split_once('\n').expect("a command, then its answer");
        let words = command.strip_prefix("$ gib ").expect("a call of gib").split(' ');
        let done = Command::new(env!("CARGO_BIN_EXE_gib")).args(words).current_dir(top).output().unwrap();
        assert_eq!(String::from_utf8([done.stdout, done.stderr].concat()).unwrap(), answer, "{command}");
    }
}

#[test]
fn the_grammar_is_the_file() {
    assert_eq!(blocks("lalrpop"), [QUERY]);
}
