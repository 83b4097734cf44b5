//! `gib`: the passes on the command line. A convenience on top of the calls: nothing of the proofs rests on it.
mod input;
mod options;
mod refused;

use input::{Input, Unread};
use normalize::{grown, Refusal};
use options::{Options, Pass, Request, HELP};
use std::ffi::OsString;
use std::io::{self, Write};
use std::process::ExitCode;

const REFUSED: u8 = 1;
const USAGE: u8 = 2;

/// The tree that the pass makes, as bytes.
fn made(tape: &[u8], options: &Options) -> Result<Vec<u8>, Refusal> {
    let (limit, longest) = (options.limit, options.longest);
    match options.pass {
        Pass::Resolve => grown(tape, longest, normalize::resolve),
        Pass::Levels => grown(tape, longest, normalize::levels),
        Pass::Macros => grown(tape, longest, |tape, output, work| normalize::macros(tape, limit, output, work)),
        Pass::Expand | Pass::List | Pass::Check => grown(tape, longest, |tape, output, work| normalize::whole(tape, limit, output, work)),
    }
}

/// What is written of a tree.
fn written(tree: Vec<u8>, options: &Options) -> Vec<u8> {
    if options.pass == Pass::Check {
        return vec![];
    }
    if options.tape {
        return tree;
    }
    reading::listing(&tape::read_made(&tree).expect("a tree that a call wrote can be read").items).into_bytes()
}

/// A reader that wants no more, as `head` in a pipe, is no error.
fn put(bytes: &[u8], file: Option<&str>) -> io::Result<()> {
    let Some(file) = file else {
        let written = io::stdout().write_all(bytes).and_then(|()| io::stdout().flush());
        return written.or_else(|error| if error.kind() == io::ErrorKind::BrokenPipe { Ok(()) } else { Err(error) });
    };
    std::fs::write(file, bytes)
}

fn run(options: &Options) -> Result<(), (u8, String)> {
    let Input { tape, text } = input::read(&options.file).map_err(|unread| match unread {
        Unread::Io(error) => (USAGE, format!("gib: {}: {error}\n", options.file)),
        Unread::Bytes => (REFUSED, format!("error: neither a tape nor a text in UTF-8\n --> {}\n", options.file)),
        Unread::Grammar(no, text) => (REFUSED, refused::unread(&no, &options.file, &text)),
    })?;
    let tree = made(&tape, options).map_err(|refusal| (REFUSED, refused::shown(refusal, &options.file, text.as_deref())))?;
    let output = options.output.as_deref();
    put(&written(tree, options), output).map_err(|error| (USAGE, format!("gib: {}: {error}\n", output.unwrap_or("standard output"))))
}

fn main() -> ExitCode {
    let words: Result<Vec<String>, OsString> = std::env::args_os().skip(1).map(OsString::into_string).collect();
    let asked =
        words.map_err(|word| format!("`{}` is not UTF-8", word.to_string_lossy())).and_then(|words| options::options(words.into_iter()));
    let done = match asked {
        Ok(Request::Help) => put(HELP.as_bytes(), None).map_err(|error| (USAGE, format!("gib: standard output: {error}\n"))),
        Ok(Request::Run(options)) => run(&options),
        Err(wrong) => Err((USAGE, format!("gib: {wrong}; gib --help says what there is\n"))),
    };
    let Err((status, message)) = done else { return ExitCode::SUCCESS };
    // a message that can't be written leaves the status
    let _ = io::stderr().write_all(message.as_bytes());
    ExitCode::from(status)
}
