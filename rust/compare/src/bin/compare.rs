//! `compare SEED COUNT [CALL]`: tapes with every room, short tapes, tapes at the limits, and COUNT random tapes that SEED fixes, resolved by us and by the
//! Rust; then the same for levels, for macros and for the whole call, each random tape at several lengths of output. CALL is resolve, levels, macros or whole:
//! that call alone.
//! Prints how often each answer came. Exit status: 0 all agreed, 1 one differs, 2 bad usage.
use compare::case::{every_room, level_lengths, Case};
use compare::judge::{LEVELS, MACROS, RESOLVE, WHOLE};
use compare::run::Parts;
use compare::tally::Tally;
use compare::{edges, grammars, ladders, levels, macro_edges, macros, mix, rounds, short, whole};
use oracle::chance::Chance;
use oracle::Call;
use reading::write;

/// The comparison of a call, by a seed and a count.
type Part = fn(u64, usize) -> Tally;

const PARTS: [(&str, Part); 4] = [("resolve", resolving), ("levels", levelling), ("macros", expanding), ("whole", passing)];

fn main() {
    let words: Vec<String> = std::env::args().skip(1).collect();
    let Some((seed, count, parts)) = asked(&words) else {
        eprintln!("usage: compare SEED COUNT [resolve|levels|macros|whole]");
        std::process::exit(2);
    };
    oracle::panics_are_answers();
    let differences: usize = parts.iter().map(|part| part(seed, count).differences).sum();
    if differences > 0 {
        std::process::exit(1);
    }
}

fn asked(words: &[String]) -> Option<(u64, usize, Vec<Part>)> {
    let (numbers, call) = words.split_at_checked(2)?;
    let parts: Vec<Part> = match call {
        [] => PARTS.map(|(_, part)| part).to_vec(),
        [call] => vec![PARTS.iter().find(|(word, _)| word == call)?.1],
        _ => return None,
    };
    Some((numbers[0].parse().ok()?, numbers[1].parse().ok()?, parts))
}

fn resolving(seed: u64, count: usize) -> Tally {
    let mut parts = Parts::new(RESOLVE, seed);
    let tapes: Vec<Vec<u8>> = grammars::RESOLVE.iter().chain(&grammars::MACRO_EXPAND).map(|known| known.tape()).collect();
    parts.part("every room", tapes.iter().flat_map(|tape| every_room(tape, 0)));
    parts.part("short, of bytes", short::of_bytes(3).into_iter().map(Case::fitting));
    parts.part("short, of commands", short::of_commands(5).into_iter().map(Case::fitting));
    parts.part("at the limits", edges::cases().into_iter());
    parts.part("random", mix::cases(Chance(seed)).take(count));
    parts.end()
}

fn levelling(seed: u64, count: usize) -> Tally {
    let mut parts = Parts::new(LEVELS, seed);
    let tapes: Vec<Vec<u8>> = levels::CASES.iter().map(|case| write(&case.stage())).collect();
    let longest = |tape: &Vec<u8>| level_lengths(tape).into_iter().max().unwrap_or(0);
    parts.part("every room", tapes.iter().flat_map(|tape| every_room(tape, longest(tape))));
    parts.part("short, of bytes", short::of_bytes(2).into_iter().map(Case::fitting));
    parts.part("short, of commands", short::of_commands(4).into_iter().map(Case::fitting));
    parts.part("short, of levels", ladders::every(4).into_iter().map(|stage| Case::roomy(write(&stage))));
    parts.part("at the limits", edges::level_cases().into_iter());
    parts.part("random", mix::level_cases(Chance(seed), count));
    parts.end()
}

fn expanding(seed: u64, count: usize) -> Tally {
    let mut parts = Parts::new(MACROS, seed);
    parts.part("grammars of LALRPOP's unit tests, chosen ones", macros::cases(&mut Chance(seed), 3_000).into_iter());
    parts.part("every room", (0..4).flat_map(macros::star_in_every_room));
    parts.part("short, of bytes", short::of_bytes(2).into_iter().map(|tape| Case::expanding(tape, 1)));
    parts.part("short, of commands", short::of_commands(4).into_iter().map(|tape| Case::expanding(tape, 2)));
    parts.part("short, of symbols", rounds::every(2, 2).into_iter().map(|stage| Case::expanding(write(&stage), 4)));
    parts.part("at the limits", macro_edges::cases(Call::Macros, macro_edges::all()).into_iter());
    parts.part("random", mix::macro_cases(Chance(seed), count));
    parts.end()
}

fn passing(seed: u64, count: usize) -> Tally {
    let mut parts = Parts::new(WHOLE, seed);
    parts.part("grammars of LALRPOP's unit tests, chosen ones", whole::cases(&mut Chance(seed), 3_000).into_iter());
    parts.part("every room", (0..3).flat_map(whole::in_every_room));
    parts.part("short, of bytes", short::of_bytes(2).into_iter().map(|tape| Case::expanding(tape, 1)));
    parts.part("short, of commands", short::of_commands(4).into_iter().map(|tape| Case::expanding(tape, 2)));
    parts.part("short, of levels", ladders::every(3).into_iter().map(|stage| Case::expanding(write(&stage), 4)));
    parts.part("short, of symbols", rounds::every(1, 2).into_iter().map(|stage| Case::expanding(write(&stage), 4)));
    parts.part("at the limits", macro_edges::cases(Call::Whole, whole::edges()).into_iter());
    parts.part("at the limits of levels", edges::level_cases().into_iter());
    parts.part("at the limits of macros", macro_edges::cases(Call::Whole, macro_edges::all()).into_iter());
    parts.part("random", mix::whole_cases(Chance(seed), count));
    parts.end()
}
