//! Our archive set against document 01's second reading and LALRPOP's Rust on a few thousand tapes.
//! What needs the Rust is skipped where it isn't there, and the count of skipped tapes is printed.
use compare::case::{at_level_lengths, every_room, level_lengths, Case};
use compare::judge::{LEVELS, MACROS, RESOLVE, WHOLE};
use compare::run::Parts;
use compare::tally::Tally;
use compare::{edges, grammars, ladders, levels, macro_edges, macros, mix, rounds, short, whole};
use oracle::chance::Chance;
use oracle::Call;
use reading::write;

const SEED: u64 = 20_261_116;
const RANDOM: usize = 4_000;

fn main() {
    oracle::panics_are_answers();
    has_all(resolving(), (0..=13).chain([20, 21]));
    has_all(levelling(), (0..=16).chain([20, 21]));
    let total = expanding();
    has_rounds(&total);
    has_all(total, (0..=13).chain(17..=21));
    let total = passing();
    has_rounds(&total);
    has_all(total, 0..=21);
}

fn resolving() -> Tally {
    let mut parts = Parts::new(RESOLVE, SEED);
    parts.part("grammars of LALRPOP's unit tests", grammars::all().map(|known| Case::fitting(known.tape())));
    parts.part("every room", every_room(&grammars::MACRO_EXPAND[2].tape(), 0));
    parts.part("short, of bytes", short::of_bytes(2).into_iter().map(Case::fitting));
    parts.part("short, of commands", short::of_commands(3).into_iter().map(Case::fitting));
    parts.part("at the limits", edges::cases().into_iter());
    parts.part("random", mix::cases(Chance(SEED)).take(RANDOM));
    parts.end()
}

fn levelling() -> Tally {
    let mut parts = Parts::new(LEVELS, SEED);
    let known = grammars::all().map(|known| known.stage());
    let chosen = levels::CASES.iter().chain(&levels::OTHERS).map(|case| case.stage());
    let tapes = known.chain(chosen).chain(levels::REFUSED.iter().map(|case| case.stage())).map(|stage| write(&stage));
    let mut chance = Chance(SEED);
    parts.part("grammars of LALRPOP's unit tests, chosen ones", tapes.flat_map(|tape| at_level_lengths(&mut chance, &tape)));
    let left = write(&levels::CASES[0].stage());
    parts.part("every room", every_room(&left, level_lengths(&left).into_iter().max().unwrap_or(0)));
    parts.part("short, of bytes", short::of_bytes(1).into_iter().map(Case::fitting));
    parts.part("short, of commands", short::of_commands(2).into_iter().map(Case::fitting));
    parts.part("short, of levels", ladders::every(3).into_iter().map(|stage| Case::roomy(write(&stage))));
    parts.part("at the limits", edges::level_cases().into_iter());
    parts.part("random", mix::level_cases(Chance(SEED), RANDOM));
    parts.end()
}

fn expanding() -> Tally {
    let mut parts = Parts::new(MACROS, SEED);
    parts.part("grammars of LALRPOP's unit tests, chosen ones", macros::cases(&mut Chance(SEED), 1_000).into_iter());
    parts.part("every room", macros::star_in_every_room(2).into_iter());
    parts.part("short, of bytes", short::of_bytes(1).into_iter().map(|tape| Case::expanding(tape, 1)));
    parts.part("short, of commands", short::of_commands(2).into_iter().map(|tape| Case::expanding(tape, 2)));
    parts.part("short, of symbols", rounds::every(1, 1).into_iter().map(|stage| Case::expanding(write(&stage), 4)));
    parts.part("at the limits", macro_edges::cases(Call::Macros, macro_edges::all()).into_iter());
    parts.part("random", mix::macro_cases(Chance(SEED), RANDOM / 2));
    parts.end()
}

fn passing() -> Tally {
    let mut parts = Parts::new(WHOLE, SEED);
    parts.part("grammars of LALRPOP's unit tests, chosen ones", whole::cases(&mut Chance(SEED), 1_000).into_iter());
    parts.part("every room", whole::in_every_room(1).into_iter());
    parts.part("short, of bytes", short::of_bytes(1).into_iter().map(|tape| Case::expanding(tape, 1)));
    parts.part("short, of commands", short::of_commands(2).into_iter().map(|tape| Case::expanding(tape, 2)));
    parts.part("short, of levels", ladders::every(2).into_iter().map(|stage| Case::expanding(write(&stage), 4)));
    parts.part("short, of symbols", rounds::every(1, 1).into_iter().map(|stage| Case::expanding(write(&stage), 4)));
    parts.part("at the limits", macro_edges::cases(Call::Whole, whole::few_edges()).into_iter());
    parts.part("random", mix::whole_cases(Chance(SEED), RANDOM / 2));
    parts.end()
}

/// Each answer that macros may come to in any round: before the first is over, after one, two, three, and more.
fn has_rounds(total: &Tally) {
    if oracle::is_there() {
        for number in [0, 17, 18, 19, 20, 21] {
            let from = [0, 1, 2, 3, 4, usize::MAX].map(|least| total.after(number, least));
            assert!(from.windows(2).all(|pair| pair[0] > pair[1]), "{number}: {from:?}");
        }
    }
}

/// No difference, and each of these answers, 0 being a yes.
fn has_all(total: Tally, numbers: impl Iterator<Item = u8>) {
    assert_eq!(total.differences, 0, "{} tapes differ", total.differences);
    if oracle::is_there() {
        assert_eq!(total.skipped, 0);
        let missing: Vec<u8> = numbers.filter(|number| !total.answers.contains_key(number)).collect();
        assert!(missing.is_empty(), "no tape with the answers {missing:?}");
    }
}
