//! Levels beside LALRPOP's `expand_precedence`, which has its resolved tree ready and resolves it once more: on grammars and on long ladders.
//! What levels take of our call is the call without the call for resolving; of theirs, `expand_precedence` without `resolve` of the same tree.
use crate::callgrind::{self, per_byte, Call};
use crate::functions;
use crate::grammars::SIZES;
use crate::measure::{least_of, levelling, median, resolving, theirs, turns, AIM};
use crate::subject::Subject;
use oracle::Ready;
use reading::parse;
use reading::tree::Stage;

/// Alternatives of a long ladder.
const RUNGS: usize = 4_096;
/// Runs of a long ladder: LALRPOP takes a sixth of a second for some of them.
const OUR_RUNS: usize = 50;
const THEIR_RUNS: usize = 5;

pub fn tell() {
    println!("\nLevels: nanoseconds for each byte of the tape. LALRPOP's `expand_precedence` has its resolved tree ready.\n");
    println!(
        "| nonterminals | tape, bytes | tree, bytes | call | of it levels | LALRPOP | of it levels | LALRPOP / levels | levels / levels |"
    );
    println!("|---|---|---|---|---|---|---|---|---|");
    let ratios: Vec<Option<Ratios>> = SIZES.iter().map(|&size| line(&size.to_string(), &Subject::of_grammar(size))).collect();
    verdict("LALRPOP's `expand_precedence` over our levels", ratios.iter().flatten().map(|ratios| ratios.with_resolving));
    verdict("The same without its resolving", ratios.iter().flatten().map(|ratios| ratios.levels_alone));
    count();
    ladders();
}

/// LALRPOP's over ours.
struct Ratios {
    /// Theirs with the resolving in it.
    with_resolving: f64,
    levels_alone: f64,
}

impl Ratios {
    fn of(ours: f64, theirs: f64, again: f64) -> Ratios {
        Ratios { with_resolving: theirs / ours, levels_alone: (theirs - again) / ours }
    }
}

/// The differences, turn by turn: their median.
fn without(whole: &[f64], part: &[f64]) -> f64 {
    median(whole.iter().zip(part).map(|(whole, part)| whole - part).collect())
}

/// One line of the table.
fn line(name: &str, subject: &Subject) -> Option<Ratios> {
    let (tape, tree) = (subject.tape.len(), subject.levelled_tree().len());
    let ready = subject.ready.clone().and_then(Ready::resolved);
    let mut runs = vec![resolving(subject, subject.work_of_resolving()), levelling(subject)];
    for pass in [Ready::resolved, Ready::levelled] {
        runs.extend(ready.as_ref().map(|ready| theirs(ready, tape, pass)));
    }
    let all = turns(runs, tape);
    let (call, ours) = (median(all[1].clone()), without(&all[1], &all[0]));
    let front = format!("| {name} | {tape} | {tree} | {call:.2} | {ours:.2} |");
    if ready.is_none() {
        println!("{front} – | – | – | – |");
        return None;
    }
    let (theirs, alone) = (median(all[3].clone()), without(&all[3], &all[2]));
    let ratios = Ratios::of(ours, theirs, theirs - alone);
    println!("{front} {theirs:.2} | {alone:.2} | {:.2} | {:.2} |", ratios.with_resolving, ratios.levels_alone);
    Some(ratios)
}

/// Whether the least of the ratios is what is aimed at. One that isn't above 0 tells nothing: then resolving alone took as long as the call.
fn verdict(name: &str, ratios: impl Iterator<Item = f64>) {
    let least = ratios.fold(f64::INFINITY, f64::min);
    match least {
        f64::INFINITY => {}
        _ if least <= 0.0 => println!("\n{name}: not told, since resolving alone took as long as the call."),
        _ if least >= AIM => println!("\n{name}: the least is {least:.2}, at least {AIM}."),
        _ => println!("\n{name}: the least is {least:.2}, and that is not at least {AIM}."),
    }
}

/// Instructions of one call.
fn count() {
    if !callgrind::is_there() {
        return;
    }
    println!("\nLevels: instructions for each byte of the tape, the clearing of memory not counted.\n");
    println!("| nonterminals | call | of it levels | LALRPOP | of it levels | LALRPOP / levels | levels / levels |\n|---|---|---|---|---|---|---|");
    for size in &SIZES[..4] {
        let word = size.to_string();
        let [call, resolving] = [Call::Levels, Call::Resolve].map(|call| per_byte(call, &word));
        let ours = call - resolving;
        let theirs = oracle::is_there().then(|| {
            let [levels, again] = [Call::LalrpopLevels, Call::LalrpopAgain].map(|call| per_byte(call, &word));
            let ratios = Ratios::of(ours, levels, again);
            format!("{levels:.1} | {:.1} | {:.2} | {:.2}", levels - again, ratios.with_resolving, ratios.levels_alone)
        });
        println!("| {size} | {call:.1} | {ours:.1} | {} |", theirs.unwrap_or("– | – | – | –".into()));
    }
    functions(Call::Levels, "levels", "128");
}

/// One nonterminal of many alternatives, at these levels: `n` at the lowest, sums to the left at the others.
fn ladder(levels: impl Iterator<Item = usize>) -> Stage {
    let alternative = |level| match level {
        0 => "#[precedence(level=\"0\")] \"n\"".to_string(),
        _ => format!("#[precedence(level=\"{level}\")] #[assoc(side=\"left\")] E \"+\" E"),
    };
    parse(&format!("E = {{ {} }};", levels.map(alternative).collect::<Vec<_>>().join(", ")))
}

/// Whether many levels take longer than few: LALRPOP looks through all alternatives that are left for each level.
fn ladders() {
    println!("\nOne nonterminal of {RUNGS} alternatives: nanoseconds for each byte of the tape, the least of {OUR_RUNS} runs, of LALRPOP's {THEIR_RUNS}.\n");
    println!("| levels | tape, bytes | tree, bytes | call | of it levels | LALRPOP | LALRPOP / levels |\n|---|---|---|---|---|---|---|");
    ladder_line(&format!("{RUNGS}, ascending"), &ladder(0..RUNGS));
    ladder_line(&format!("{RUNGS}, descending"), &ladder((0..RUNGS).rev()));
    ladder_line("2", &ladder((0..RUNGS).map(|k| k % 2)));
}

fn ladder_line(name: &str, stage: &Stage) {
    let subject = Subject::of_stage(stage);
    let (tape, tree) = (subject.tape.len(), subject.levelled_tree().len());
    let ready = subject.ready.clone().and_then(Ready::resolved);
    let least = |run, runs| least_of(run, runs) / tape as f64;
    let (call, resolving) = (least(levelling(&subject), OUR_RUNS), least(resolving(&subject, subject.work_of_resolving()), OUR_RUNS));
    let ours = call - resolving;
    let theirs = ready.as_ref().map(|ready| least(theirs(ready, tape, Ready::levelled), THEIR_RUNS));
    let theirs = theirs.map_or("– | –".into(), |theirs| format!("{theirs:.2} | {:.2}", theirs / ours));
    println!("| {name} | {tape} | {tree} | {call:.2} | {ours:.2} | {theirs} |");
}

#[cfg(test)]
mod tests {
    use super::*;

    /// Short ladders and the grammars are levelled, and as LALRPOP does it.
    #[test]
    fn they_are_levelled() {
        for stage in [ladder(0..9), ladder((0..9).rev()), ladder((0..9).map(|k| k % 2))] {
            assert!(!Subject::of_stage(&stage).levelled_tree().is_empty());
        }
        for size in SIZES {
            let subject = Subject::of_grammar(size);
            assert_ne!(subject.levelled_tree(), subject.tape);
        }
    }
}
