//! Our calls set against document 01's second reading (`reading`) and LALRPOP's own Rust (`oracle`), tape by tape.
use std::io::Write;

pub mod case;
pub mod chosen;
pub mod chosen_rounds;
pub mod edges;
pub mod examples;
pub mod grammars;
pub mod grow;
pub mod judge;
pub mod ladders;
pub mod levels;
pub mod macro_edges;
pub mod macros;
pub mod mix;
pub mod real;
pub mod renamed;
pub mod rounds;
pub mod run;
pub mod short;
pub mod shrink;
pub mod stages;
pub mod stated;
pub mod tally;
pub mod whole;

/// Whether the Rust is there for so many checks; says so if it isn't, past the harness, which keeps a passed test's text to itself.
pub fn the_rust_is_there(checks: usize) -> bool {
    if !oracle::is_there() {
        // where standard error is closed, nobody can be told
        let _ = writeln!(std::io::stderr(), "skipped: {checks} ({})", oracle::NOT_THERE);
    }
    oracle::is_there()
}
