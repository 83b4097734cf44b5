//! Of the Rust's side alone: what goes in comes back, the unit tests' refusals are its own, the stored lists have every answer.
use compare::chosen::{has_rounds, lines, numbers, stored, word, LONGEST, OF_EACH};
use compare::grow::{tree, Size};
use compare::{grammars, stated, the_rust_is_there};
use oracle::chance::Chance;
use oracle::CALLS;

#[test]
fn a_tree_comes_back_from_lalrpops_types() {
    let mut chance = Chance(3);
    let sizes = [Size::Few, Size::Some, Size::Many];
    if the_rust_is_there(300) {
        for index in 0..300 {
            let stage = tree(&mut chance, sizes[index % 3]);
            assert_eq!(oracle::there_and_back(&stage), Some(stage));
        }
    }
}

/// The Rust refuses at the place that the unit test marks, and nothing else.
#[test]
fn the_unit_tests_answers_are_the_rusts() {
    if !the_rust_is_there(grammars::all().count()) {
        return;
    }
    for known in grammars::all() {
        let refused = oracle::resolve(&known.stage()).unwrap().err();
        assert_eq!(refused, known.refused(), "{}", known.about);
    }
}

/// As many of each answer of resolving and levels, some of each of the calls with rounds.
#[test]
fn the_stored_lists_have_each_answer() {
    for call in CALLS {
        let numbers = numbers(call);
        if !the_rust_is_there(numbers.len()) {
            continue;
        }
        let list = stored(call).unwrap();
        let of =
            |number: u8| list.iter().filter(|(_, outcome)| outcome.as_ref().err().map_or(0, |refusal| refusal.number) == number).count();
        assert_eq!(numbers.iter().map(|number| of(*number)).sum::<usize>(), list.len());
        if has_rounds(call) {
            assert!(numbers.iter().all(|number| of(*number) > 0) && (60..=150).contains(&list.len()));
        } else {
            assert!(numbers.iter().all(|number| of(*number) == OF_EACH));
            assert!(list.iter().all(|(case, _)| case.tape.len() <= LONGEST));
        }
    }
}

/// What crates/cases puts to them is what these lists and the stated cases say.
#[test]
fn the_stored_files_are_these_lists() {
    let file = |name: &str| std::fs::read_to_string(format!("{}/../../crates/cases/{name}", env!("CARGO_MANIFEST_DIR"))).unwrap();
    for call in CALLS {
        if !the_rust_is_there(numbers(call).len()) {
            continue;
        }
        let starts = ["stored", "reading"].map(|start| format!("{} {start}-", word(call)));
        let is_stored = |line: &&str| starts.iter().any(|start| line.starts_with(start));
        let of_call = |text: &str| text.lines().filter(is_stored).map(str::to_string).collect::<Vec<_>>();
        let all = lines(call, &stored(call).unwrap()).into_iter().chain(stated::lines(call).unwrap());
        let (cases, answers): (Vec<String>, Vec<String>) = all.unzip();
        assert_eq!(of_call(&file("stdin")), cases);
        assert_eq!(of_call(&file("stdout")), answers);
    }
}
