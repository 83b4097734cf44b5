//! What is wrong with a text, and where.
use std::error::Error;
use std::fmt;

/// Why a text has no tree: it is no grammar, or a tape can't carry it.
///
/// ```
/// let no = tape::lalrpop::parse("grammar;\nA = <B;").unwrap_err();
/// assert_eq!((no.line, no.column), (2, 7));
/// assert_eq!(no.to_string(), "2:7: a choice: expected `>`, found `;`");
/// ```
#[derive(Clone, Debug, PartialEq, Eq)]
pub struct Unreadable {
    /// From 1.
    pub line: usize,
    /// In characters, from 1.
    pub column: usize,
    /// One sentence.
    pub what: String,
}

impl fmt::Display for Unreadable {
    fn fmt(&self, f: &mut fmt::Formatter<'_>) -> fmt::Result {
        write!(f, "{}:{}: {}", self.line, self.column, self.what)
    }
}

impl Error for Unreadable {}

/// The same with an offset in bytes, while the text is read.
#[derive(Clone, Debug, PartialEq, Eq)]
pub struct Fault {
    pub at: usize,
    pub what: String,
}

pub type Read<T> = Result<T, Fault>;

impl Fault {
    pub fn new(at: usize, what: impl Into<String>) -> Fault {
        Fault { at, what: what.into() }
    }

    pub fn located(self, text: &str) -> Unreadable {
        let before = &text[..self.at];
        let line = before.matches('\n').count() + 1;
        let column = before.rsplit('\n').next().unwrap_or_default().chars().count() + 1;
        Unreadable { line, column, what: self.what }
    }
}
