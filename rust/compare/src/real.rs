//! Grammars that others wrote, where they are installed: each `.lalrpop` file in the folder of crates that LALRPOP_CRATES names (the one of crate
//! parser), and the grammars inside LALRPOP 0.19.8's own unit tests. None of them is part of this repository.
use crate::case::{Case, Room};
use crate::judge::{judge, Ours, Verdict, LEVELS, MACROS, RESOLVE, WHOLE};
use oracle::chance::Chance;
use std::collections::BTreeMap;
use std::path::{Path, PathBuf};
use tape::tree::{Item, Stage};

pub const FOLDER: &str = "LALRPOP_CRATES";
const LALRPOP: &str = "lalrpop-0.19.8";
/// As `gib` takes it.
const LIMIT: u16 = 64;
/// Longer than any stage of these grammars.
const ROOM: Room = Room { output: 1 << 18, work: 0 };

pub struct Real {
    /// Its file below the folder; of a unit test's, the line too.
    pub name: String,
    pub text: String,
}

/// What became of one.
pub enum Met {
    /// So many nonterminals written, so many behind all passes.
    Expanded(usize, usize),
    /// The number of the refusal, which is the Rust's too.
    Refused(u8),
    /// Why it has no tape.
    Unread(String),
}

/// The folder, or nothing where none is named.
pub fn folder() -> Option<PathBuf> {
    std::env::var_os(FOLDER).map(PathBuf::from)
}

/// Grammar files first, then unit tests, by their names.
pub fn all(folder: &Path) -> Vec<Real> {
    let mut files = vec![];
    walk(folder, &mut files);
    files.sort();
    let named = |path: &Path| path.strip_prefix(folder).expect("a file below the folder").display().to_string();
    let read = |path: &Path| std::fs::read_to_string(path).expect("a file of text");
    let is = |path: &&PathBuf, end: &str| path.extension().is_some_and(|extension| extension == end);
    let grammars = files.iter().filter(|path| is(path, "lalrpop")).map(|path| Real { name: named(path), text: read(path) });
    let tests = files.iter().filter(|path| is(path, "rs") && path.starts_with(folder.join(LALRPOP)));
    let inside = tests.flat_map(|path| inside(&named(path), &read(path)));
    grammars.chain(inside).collect()
}

fn walk(folder: &Path, files: &mut Vec<PathBuf>) {
    for entry in std::fs::read_dir(folder).expect("a folder that can be read") {
        let path = entry.expect("a folder that can be read").path();
        if path.is_dir() {
            walk(&path, files);
        } else {
            files.push(path);
        }
    }
}

/// The grammars between `r#"` and `"#` of a Rust file, with the line of each.
fn inside(name: &str, text: &str) -> Vec<Real> {
    let (mut found, mut at) = (vec![], 0);
    while let Some(next) = text[at..].find("r#") {
        at += next + "r".len();
        let behind = text[at..].trim_start_matches('#');
        let close = format!("\"{}", &text[at..text.len() - behind.len()]);
        let Some((raw, _)) = behind.strip_prefix('"').and_then(|inside| inside.split_once(&close)) else { continue };
        if is_grammar(raw) {
            let line = text[..at].matches('\n').count() + 1;
            // the marks of a place where the test waits for an error
            found.push(Real { name: format!("{name}:{line}"), text: raw.replace(">>>", "").replace("<<<", "") });
        }
        at += 2 * close.len() + raw.len();
    }
    found
}

/// The word `grammar` is there, and what a `grammar` line goes on with.
fn is_grammar(text: &str) -> bool {
    text.match_indices("grammar").any(|(at, word)| text[at + word.len()..].starts_with([';', '<', '(']))
}

/// Damaged copies, so many of each: pieces left out, moved or written twice.
pub fn damaged(chance: &mut Chance, text: &str, copies: usize) -> Vec<String> {
    let pieces: Vec<char> = text.chars().collect();
    let copy = |_| {
        let mut pieces = pieces.clone();
        let from = chance.under(pieces.len());
        let to = (from + 1 + chance.under(12)).min(pieces.len());
        let piece = if chance.percent(50) { pieces[from..to].to_vec() } else { pieces.drain(from..to).collect() };
        let at = chance.under(pieces.len() + 1);
        if chance.percent(70) {
            pieces.splice(at..at, piece);
        }
        pieces.into_iter().collect()
    };
    (0..copies).map(copy).collect()
}

/// What becomes of it: the tree that LALRPOP's parser makes is ours, and behind each call the Rust answers as ours does. Panics where that isn't so.
pub fn met(real: &Real) -> Met {
    oracle::panics_are_answers();
    let (ours, theirs) = (tape::lalrpop::parse(&real.text), parser::parse(&real.text));
    let stage = match (ours, theirs) {
        (Ok(ours), Some(theirs)) => {
            assert_eq!(Ok(&ours), theirs.as_ref(), "{}", real.name);
            ours
        }
        (Ok(ours), None) => ours,
        (Err(no), _) => return Met::Unread(no.to_string()),
    };
    let tape = tape::write(&stage);
    let case = Case { tape, limit: LIMIT, room: ROOM };
    [RESOLVE, LEVELS, MACROS, WHOLE].into_iter().for_each(|ours| agrees(real, &case, ours));
    match normalize::trees::whole(&stage, LIMIT, 1 << 20) {
        Ok(expanded) => Met::Expanded(nonterminals(&stage), nonterminals(&expanded)),
        Err(refusal) => Met::Refused(refusal.number),
    }
}

/// Panics where the Rust is there and answers otherwise.
fn agrees(real: &Real, case: &Case, ours: Ours) {
    if let Verdict::Differs(how) = judge(case, 1, ours) {
        panic!("{}: {how}", real.name);
    }
}

fn nonterminals(stage: &Stage) -> usize {
    stage.items.iter().filter(|item| matches!(item, Item::Nonterminal(_))).count()
}

/// What came out of the grammars of one file.
#[derive(Default)]
struct Sum {
    bytes: usize,
    grammars: usize,
    expanded: usize,
    before: usize,
    behind: usize,
    refused: Vec<String>,
}

impl Sum {
    fn add(&mut self, real: &Real, met: &Met) {
        (self.bytes, self.grammars) = (self.bytes + real.text.len(), self.grammars + 1);
        match met {
            Met::Expanded(before, behind) => {
                self.expanded += 1;
                (self.before, self.behind) = (self.before + before, self.behind + behind);
            }
            Met::Refused(number) => self.refused.push(number.to_string()),
            Met::Unread(_) => {}
        }
    }

    fn line(&self, file: &str) -> String {
        let counts = [self.bytes, self.grammars, self.expanded, self.before, self.behind].map(with_commas).join(" | ");
        format!("| {file} | {counts} | {} |", self.refused.join(", "))
    }
}

/// The lines of docs/GRAMMARS.md: one for each file, then one for each grammar that has no tape.
pub fn lines(folder: &Path) -> Vec<String> {
    let (mut files, mut unread) = (BTreeMap::<String, Sum>::new(), vec![]);
    for real in all(folder) {
        let met = met(&real);
        let file = real.name.split(':').next().unwrap_or_default();
        files.entry(file.to_string()).or_default().add(&real, &met);
        if let Met::Unread(no) = &met {
            unread.push(format!("| {} | {no} |", real.name));
        }
    }
    files.iter().map(|(file, sum)| sum.line(file)).chain(unread).collect()
}

fn with_commas(number: usize) -> String {
    if number < 1_000 {
        return number.to_string();
    }
    format!("{},{:03}", with_commas(number / 1_000), number % 1_000)
}
