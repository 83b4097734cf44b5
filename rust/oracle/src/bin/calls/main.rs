//! `calls SEED COUNT [ROWS]`: an antt module with COUNT cases, each a tape with a call, a limit and the lengths of its buffers; what document 01
//! says of it, LALRPOP's own code making each stage; and theorems by `refl` that the definitions (crates/passes/specs/Calls.antt) say the same,
//! ROWS cases to a theorem (25). `calls chosen`: the module crates/passes/proofs/Chosen.antt, whose cases are chosen.
#[cfg(lalrpop)]
mod case;
#[cfg(lalrpop)]
mod chosen;
#[cfg(lalrpop)]
mod grow;
#[cfg(lalrpop)]
mod random;
#[cfg(lalrpop)]
mod show;

#[cfg(lalrpop)]
fn main() {
    oracle::panics_are_answers();
    let words: Vec<String> = std::env::args().skip(1).collect();
    if words == ["chosen"] {
        return print!("{}", show::chosen(&chosen::cases()));
    }
    let numbers: Vec<u64> = words.iter().map(|word| word.parse().expect("a number")).collect();
    let rows_each = numbers.get(2).map_or(25, |rows| *rows as usize);
    print!("{}", show::random(&random::cases(numbers[0], numbers[1] as usize), rows_each));
}

#[cfg(not(lalrpop))]
fn main() {
    eprintln!("calls: LALRPOP's files are not there (LALRPOP_SRC names their folder)");
    std::process::exit(2);
}
