//! Planted faults are noticed: the byte behind the end of each buffer, or in front of it, is read or written; an answer is another.
use std::process::{Command, Output};

fn fuzz(words: &[&str]) -> Output {
    Command::new(env!("CARGO_BIN_EXE_fuzz")).args(words).output().expect("the program runs")
}

#[test]
fn a_byte_beside_a_buffer_is_noticed() {
    for buffer in ["tape", "output", "work", "answer"] {
        for (edge, access) in [("end", "read"), ("end", "write"), ("front", "read"), ("front", "write")] {
            let ended = fuzz(&["planted", buffer, edge, access]);
            let told = String::from_utf8_lossy(&ended.stderr).into_owned();
            assert!(!ended.status.success(), "{buffer} {edge} {access}");
            // a write in front mostly meets the rest of the first page, not the page before it
            let beside = (edge, access) == ("front", "write") && told.contains("bytes beside a buffer were changed");
            assert!(beside || told.contains("fault (signal 11) in a call with\n  01010041FF l1 "), "{buffer} {edge} {access}: {told}");
        }
    }
}

#[test]
fn without_a_fault_nothing_is_noticed() {
    let ended = fuzz(&["planted", "none", "end", "read"]);
    assert!(ended.status.success() && ended.stdout == b"nothing noticed\n");
}

#[test]
fn another_answer_is_told_with_a_small_tape() {
    if !oracle::is_there() {
        return eprintln!("skipped: 1 ({})", oracle::NOT_THERE);
    }
    let ended = fuzz(&["planted", "answer"]);
    let told = String::from_utf8_lossy(&ended.stderr).into_owned();
    let case = told.split_once("Macros differs: answer [0, 17, ").and_then(|(_, rest)| rest.lines().nth(1));
    let hex = case.and_then(|case| case.trim_start().split(' ').next()).unwrap_or_else(|| panic!("no tape in {told}"));
    // some atoms, a nonterminal, an alternative, a symbol to be expanded, perhaps a macro
    assert!(!ended.status.success() && (40..400).contains(&hex.len()), "{told}");
}

#[test]
fn random_tapes_agree() {
    for words in [&["random", "1", "7"][..], &["random", "1", "8", "heap"]] {
        let ended = fuzz(words);
        let told = String::from_utf8_lossy(&ended.stdout).into_owned();
        assert!(ended.status.success() && told.starts_with("random (") && told.contains(" calls agreed, 0 different, "), "{told}");
    }
}

#[test]
fn bad_words_are_refused() {
    for words in [&[][..], &["random"], &["random", "x", "1"], &["every", "2", "1"], &["every", "0", "11"], &["planted", "tape"]] {
        assert_eq!(fuzz(words).status.code(), Some(2), "{words:?}");
    }
}
