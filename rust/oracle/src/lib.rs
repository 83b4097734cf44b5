//! LALRPOP's passes, compiled from its own files (build.rs), for comparing ours with them: `resolve`, `expand` and `staged` ask them about a tree of `reading`.
//! Where those files aren't there, cfg `lalrpop` is off and they answer nothing.
//! The few names that those files use and that aren't there are in `stand_ins`; beside them stand random numbers and damage for those who compare.
#![allow(dead_code, unused)]

// the files say `string_cache::DefaultAtom` and `regex::Regex`
#[cfg(lalrpop)]
extern crate self as regex;
#[cfg(lalrpop)]
extern crate self as string_cache;

pub mod answers;
pub mod chance;
#[cfg(lalrpop)]
pub mod convert;
pub mod damage;
pub mod expanding;
#[cfg(lalrpop)]
mod leaves;
mod ready;
pub mod staging;
#[cfg(lalrpop)]
mod stand_ins;

pub use answers::{is_there, resolve, there_and_back, NOT_THERE};
pub use expanding::{expand, panics_are_answers, Expanded};
pub use ready::{Ready, ROUNDS};
pub use staging::{staged, Call, CALLS};
#[cfg(lalrpop)]
pub use stand_ins::{lexer, message, session, tls, DefaultAtom, Regex};

#[cfg(lalrpop)]
include!(concat!(env!("OUT_DIR"), "/tools.rs"));

#[cfg(lalrpop)]
pub mod collections {
    include!(concat!(env!("OUT_DIR"), "/collections.rs"));
    pub use self::map::{map, Map};
}

#[cfg(lalrpop)]
pub mod grammar {
    pub use crate::stand_ins::{free_variables, pattern};
    include!(concat!(env!("OUT_DIR"), "/grammar.rs"));
}

#[cfg(lalrpop)]
pub mod normalize {
    use crate::grammar::parse_tree::Span;

    #[derive(Clone, Debug)]
    pub struct NormError {
        pub message: String,
        pub span: Span,
    }

    pub type NormResult<T> = Result<T, NormError>;

    // what a pass answers when it refuses: the span, then the message as for `format!`
    macro_rules! return_err {
        ($at:expr, $($message:expr),+) => {
            return Err(NormError { span: $at, message: format!($($message),+) })
        };
    }

    include!(concat!(env!("OUT_DIR"), "/normalize.rs"));
}
