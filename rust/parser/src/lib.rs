//! LALRPOP 0.19.8's own parser of grammar files, compiled from Debian's crates (build.rs), to hold what rust/tape reads to.
//! Where those aren't there, cfg `parser` is off and it answers nothing.
#![allow(dead_code, unused, clippy::all)]
#![cfg_attr(parser, allow(warnings))]

// the files say `string_cache::DefaultAtom` and `unicode_xid::UnicodeXID`
#[cfg(parser)]
extern crate alloc;
#[cfg(parser)]
extern crate self as string_cache;
#[cfg(parser)]
extern crate self as unicode_xid;

#[cfg(parser)]
mod carried;
#[cfg(parser)]
#[path = "../../oracle/src/leaves.rs"]
mod leaves;
#[cfg(parser)]
#[path = "../../oracle/src/stand_ins.rs"]
mod stand_ins;

#[cfg(parser)]
pub use stand_ins::{message, session, tls, DefaultAtom};

#[cfg(parser)]
include!(concat!(env!("OUT_DIR"), "/crates.rs"));
#[cfg(parser)]
pub use lalrpop_util::{ErrorRecovery, ParseError};

#[cfg(parser)]
pub mod collections {
    include!(concat!(env!("OUT_DIR"), "/collections.rs"));
    pub use self::map::{map, Map};
}

#[cfg(parser)]
pub mod grammar {
    pub use crate::stand_ins::free_variables;
    include!(concat!(env!("OUT_DIR"), "/grammar.rs"));
}

#[cfg(parser)]
pub mod lexer {
    pub mod dfa {
        pub use crate::stand_ins::lexer::dfa::Dfa as DFA;
    }
}

#[cfg(parser)]
mod parser {
    include!(concat!(env!("OUT_DIR"), "/parser.rs"));
}

/// `unicode_xid`, as far as letters and digits go.
#[cfg(parser)]
pub trait UnicodeXID {
    fn is_xid_start(self) -> bool;
    fn is_xid_continue(self) -> bool;
}

#[cfg(parser)]
impl UnicodeXID for char {
    fn is_xid_start(self) -> bool {
        self.is_alphabetic()
    }
    fn is_xid_continue(self) -> bool {
        self.is_alphanumeric() || self == '_'
    }
}

/// Whether LALRPOP's parser was there to be compiled.
pub fn is_there() -> bool {
    cfg!(parser)
}

/// The tree that LALRPOP's parser makes of a text, as far as a tape carries it, or what it or the tape can't; nothing where it isn't there.
#[cfg(parser)]
pub fn parse(text: &str) -> Option<Result<tape::tree::Stage, String>> {
    Some(match parser::parse_grammar(text) {
        Ok(grammar) => carried::stage(&grammar),
        Err(error) => Err(format!("LALRPOP's parser: {error:?}")),
    })
}

#[cfg(not(parser))]
pub fn parse(_: &str) -> Option<Result<tape::tree::Stage, String>> {
    None
}
