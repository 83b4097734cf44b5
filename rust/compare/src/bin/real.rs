//! real: prints the lines of docs/GRAMMARS.md, of the grammars in the crates that LALRPOP_CRATES names.
use compare::real::{folder, lines, FOLDER};
use std::process::ExitCode;

fn main() -> ExitCode {
    let Some(folder) = folder() else {
        eprintln!("real: {FOLDER} names no folder of crates");
        return ExitCode::from(2);
    };
    lines(&folder).iter().for_each(|line| println!("{line}"));
    ExitCode::SUCCESS
}
