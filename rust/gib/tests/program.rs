//! The program as a person or a build calls it.
use std::ffi::OsStr;
use std::io::Write;
use std::os::unix::ffi::OsStrExt;
use std::path::PathBuf;
use std::process::{Command, Output, Stdio};

const SUM: &str =
    "grammar;\npub E = {\n    #[precedence(level=\"1\")] \"n\",\n    #[precedence(level=\"2\")] #[assoc(side=\"left\")] E \"+\"? E,\n};\n";

/// The listing of SUM's levels.
const LEVELS: &str = "E1 13-14 pub\n  \"n\"\nE 13-14 pub\n  E \"+\"? E1\n  E1\n";

/// What the program leaves, given this on standard input.
fn run(words: &[&str], stdin: &[u8]) -> Output {
    let mut command = Command::new(env!("CARGO_BIN_EXE_gib"));
    let mut child = command.args(words).stdin(Stdio::piped()).stdout(Stdio::piped()).stderr(Stdio::piped()).spawn().unwrap();
    child.stdin.take().unwrap().write_all(stdin).unwrap();
    child.wait_with_output().unwrap()
}

/// Standard output, standard error, and the exit status.
fn gib(words: &[&str], stdin: &[u8]) -> (String, String, i32) {
    let done = run(words, stdin);
    (String::from_utf8(done.stdout).unwrap(), String::from_utf8(done.stderr).unwrap(), done.status.code().unwrap())
}

/// A file for one test alone.
fn file(name: &str, bytes: &[u8]) -> String {
    let path = PathBuf::from(env!("CARGO_TARGET_TMPDIR")).join(name);
    std::fs::write(&path, bytes).unwrap();
    path.to_str().unwrap().to_string()
}

fn yes(output: &str) -> (String, String, i32) {
    (output.to_string(), String::new(), 0)
}

fn no(message: &str, status: i32) -> (String, String, i32) {
    (String::new(), message.to_string(), status)
}

#[test]
fn a_grammar_is_listed_as_each_pass_leaves_it() {
    let file = file("sum.lalrpop", SUM.as_bytes());
    assert_eq!(gib(&["levels", &file], b""), yes(LEVELS));
    let repeat = "\"+\"? 106-110 inline\n  \"+\" => Some(<>)\n   => None\n";
    assert_eq!(gib(&["expand", &file], b""), yes(&format!("{LEVELS}{repeat}")));
    assert_eq!(gib(&["list", &file], b""), yes(&format!("{LEVELS}{repeat}")));
    assert_eq!(gib(&["check", &file], b""), yes(""));
    assert_eq!(gib(&["levels", "-"], SUM.as_bytes()), yes(LEVELS));
}

#[test]
fn a_tape_that_is_written_is_read() {
    let (grammar, tape) = (file("written.lalrpop", SUM.as_bytes()), file("written.tape", b""));
    assert_eq!(gib(&["resolve", "--tape", "-o", &tape, &grammar], b""), yes(""));
    assert_ne!(std::fs::read(&tape).unwrap()[0], b'g');
    assert_eq!(gib(&["expand", &tape], b""), gib(&["expand", &grammar], b""));
    // the empty file is the empty tape
    assert_eq!(gib(&["expand", "-"], b""), yes(""));
}

#[test]
fn a_refusal_is_shown_in_its_line() {
    let file = file("refused.lalrpop", SUM.replace("level=\"2\"", "level=\"two\"").as_bytes());
    let line = "    #[precedence(level=\"two\")] #[assoc(side=\"left\")] E \"+\"? E,";
    // an alternative's place begins behind its attributes
    let at = line.find("E ").unwrap();
    let (blanks, marks) = (" ".repeat(at), "^".repeat("E \"+\"? E".len()));
    let place = format!(" --> {file}:4:{}\n  |\n4 | {line}\n  | {blanks}{marks}\n", at + 1);
    let message = format!("error[14]: a precedence level is not a number under 4294967296\n{place}");
    assert_eq!(gib(&["expand", &file], b""), no(&message, 1));
}

#[test]
fn what_is_unread_is_shown_in_its_line() {
    let unread = gib(&["expand", "-"], b"grammar;\nA = B<>;\n");
    let place = " --> -:2:5\n  |\n2 | A = B<>;\n  |     ^\n";
    assert_eq!(unread, no(&format!("error: a macro call without arguments can't be carried\n{place}"), 1));
    assert_eq!(gib(&["expand", "-"], b"\xff"), no("error: neither a tape nor a text in UTF-8\n --> -\n", 1));
}

/// What is refused leaves the file as it was; one that can't be written is none of the grammar's faults.
#[test]
fn an_output_is_written_only_at_a_yes() {
    let output = file("kept", b"kept");
    assert_eq!(gib(&["expand", "-o", &output, "-"], b"grammar; A = B;").2, 1);
    assert_eq!(std::fs::read(&output).unwrap(), b"kept");
    assert_eq!(gib(&["levels", "-o", &output, "-"], SUM.as_bytes()), yes(""));
    assert_eq!(std::fs::read_to_string(&output).unwrap(), LEVELS);
    let (_, message, status) = gib(&["levels", "-o", "no/such/file", "-"], SUM.as_bytes());
    assert!(message.starts_with("gib: no/such/file: ") && status == 2, "{message}");
}

#[test]
fn limits_are_kept() {
    let limited = |option, number| gib(&["expand", option, number, "-"], SUM.as_bytes());
    let (_, message, status) = limited("--limit", "0");
    assert!(message.starts_with("error[18]: macro expansion needs more rounds than the limit\n --> -:4:"), "{message}");
    assert_eq!(status, 1);
    assert_eq!(limited("--output-size", "0"), no("error[21]: the output buffer is shorter than a stage\n --> -\n", 1));
    assert_eq!(limited("--limit", "1"), limited("--limit", "65535"));
}

#[test]
fn usage_has_a_status_of_its_own() {
    assert_eq!(gib(&["widen", "-"], b""), no("gib: there is no pass `widen`; gib --help says what there is\n", 2));
    let done = Command::new(env!("CARGO_BIN_EXE_gib")).args([OsStr::from_bytes(b"check"), OsStr::from_bytes(b"\xff")]).output().unwrap();
    let said = "gib: `\u{fffd}` is not UTF-8; gib --help says what there is\n";
    assert_eq!((String::from_utf8(done.stderr).unwrap(), done.status.code()), (said.to_string(), Some(2)));
    let (_, message, status) = gib(&["expand", "no/such/file"], b"");
    assert!(message.starts_with("gib: no/such/file: "), "{message}");
    assert_eq!(status, 2);
    let (help, _, status) = gib(&["--help"], b"");
    assert!(help.starts_with("gib PASS FILE") && status == 0);
}

/// One program writes the tape, the next one reads it while it is written: levels, then macros of it, are both passes.
#[test]
fn programs_in_a_pipe() {
    let program = env!("CARGO_BIN_EXE_gib");
    let (grammar, both) = (file("pipe.lalrpop", SUM.as_bytes()), gib(&["expand", "-"], SUM.as_bytes()));
    let line = format!("{program} levels --tape - < '{grammar}' | {program} macros --tape - | {program} resolve -");
    let done = Command::new("sh").args(["-c", &line]).output().unwrap();
    assert_eq!(String::from_utf8(done.stdout).unwrap(), "");
    assert!(String::from_utf8(done.stderr).unwrap().starts_with("error[4]: "), "a name that was made is none that a tape may begin with");
    let line = format!("{program} levels --tape - < '{grammar}' | {program} macros -");
    let done = Command::new("sh").args(["-c", &line]).output().unwrap();
    assert_eq!((String::from_utf8(done.stdout).unwrap(), done.status.code()), (both.0, Some(0)));
}

/// Whoever reads may stop early.
#[test]
fn a_closed_pipe_is_no_error() {
    let wide: String = (0..20_000).map(|n| format!("A{n} = \"n\";\n")).collect();
    let file = file("wide.lalrpop", format!("grammar;\n{wide}").as_bytes());
    let mut child =
        Command::new(env!("CARGO_BIN_EXE_gib")).args(["expand", &file]).stdout(Stdio::piped()).stderr(Stdio::piped()).spawn().unwrap();
    drop(child.stdout.take());
    let done = child.wait_with_output().unwrap();
    assert_eq!((String::from_utf8(done.stderr).unwrap(), done.status.code()), (String::new(), Some(0)));
}
