//! Grammars as trees, and the tapes that carry them (docs/TAPE.md).
//!
//! A grammar in LALRPOP's notation becomes a tree, and a tree becomes a tape:
//!
//! ```
//! let stage = tape::lalrpop::parse(r#"grammar; A = "a";"#).unwrap();
//! // the atoms A and a
//! assert!(tape::write(&stage).starts_with(&[0x01, 1, 0, b'A', 0x01, 1, 0, b'a']));
//! ```
#![warn(missing_docs)]

mod build;
pub mod lalrpop;
mod read;
mod refusal;
mod sizes;
mod texts;
pub mod tree;
mod write;

pub use read::{operand_bytes, read, read_made};
pub use refusal::{Place, Refusal};
pub use sizes::within_operands;
pub use write::{write, write_over};
