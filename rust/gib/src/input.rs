//! The file, as a tape, and as a text where it is a grammar.
use std::io::{self, Read};
use tape::lalrpop::Unreadable;

/// A tape, and the grammar that it was made of.
pub struct Input {
    pub tape: Vec<u8>,
    pub text: Option<String>,
}

/// Why there is no tape.
pub enum Unread {
    Io(io::Error),
    /// Neither a tape nor a text.
    Bytes,
    /// A grammar that can't be read or carried, and its text.
    Grammar(Unreadable, String),
}

/// The bytes that a tape may begin with; no grammar does. A file without a byte is the empty tape.
fn is_tape(bytes: &[u8]) -> bool {
    bytes.first().is_none_or(|first| matches!(first, 0x01 | 0x10 | 0x30 | 0x31))
}

pub fn read(file: &str) -> Result<Input, Unread> {
    let bytes = if file == "-" {
        let mut bytes = vec![];
        io::stdin().read_to_end(&mut bytes).map(|_| bytes)
    } else {
        std::fs::read(file)
    };
    let bytes = bytes.map_err(Unread::Io)?;
    if is_tape(&bytes) {
        return Ok(Input { tape: bytes, text: None });
    }
    let text = String::from_utf8(bytes).map_err(|_| Unread::Bytes)?;
    match tape::lalrpop::parse(&text) {
        Ok(stage) => Ok(Input { tape: tape::write(&stage), text: Some(text) }),
        Err(no) => Err(Unread::Grammar(no, text)),
    }
}
