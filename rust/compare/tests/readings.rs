//! The cases of readings 22, 28 and 29 (rust/compare/src/stated.rs says which these are), each answered by us and by the Rust as is stated, and their numbers.
use compare::judge::{judge, words, Ours, Verdict, MACROS, WHOLE};
use compare::stated::{all, Stated};
use compare::the_rust_is_there;
use normalize::Words;

fn named(name: &str) -> Stated {
    all().into_iter().find(|stated| stated.name == name).expect("a stated case")
}

/// The words of our answer.
fn ours(stated: &Stated, ours: Ours) -> Words {
    let case = &stated.case;
    let (mut output, mut work, mut answer) = (vec![0; case.output_len()], vec![0; case.work_len()], Words::default());
    (ours.made)(&case.tape, case.limit, &mut output, &mut work, &mut answer);
    answer
}

#[test]
fn each_is_answered_as_stated() {
    // without the Rust the length of a stage isn't known
    if !the_rust_is_there(2 * all().len()) {
        return;
    }
    oracle::panics_are_answers();
    for stated in all() {
        for call in [MACROS, WHOLE] {
            let number = stated.refused.map_or(0, |refusal| refusal.number);
            assert_eq!(ours(&stated, call)[0], u64::from(number == 0), "{}", stated.name);
            if let Some(refusal) = stated.refused {
                assert_eq!(ours(&stated, call), words(&Err(refusal)), "{}", stated.name);
            }
            // answer, tree, bytes behind and work, against the second reading and the Rust
            let verdict = judge(&stated.case, 1, call);
            assert!(matches!(verdict, Verdict::Agreed(answer, _) if answer == number), "{}: {verdict:?}", stated.name);
        }
    }
}

/// Reading 22: printed forms longer than every buffer.
#[test]
fn the_groups_are_longer_than_every_buffer() {
    for stated in [named("reading-22-equal-groups"), named("reading-22-different-groups")] {
        let (from, to) = stated.refused.expect("a refusal").place;
        assert_eq!(to - from, 90_004);
        assert!(stated.case.work_len() < 90_004);
        assert_eq!(stated.case.work_len(), 16 * stated.case.tape.len());
    }
}

/// Reading 28: 63 question marks twice, `@L` and `@R`: fewer than a tenth of the output's bytes, and hardly fewer.
#[test]
fn hardly_more_symbols_could_be_pending() {
    let (case, pending) = (named("reading-28-no-round").case, 2 * 63 + 2);
    assert_eq!((case.tape.len(), case.output_len(), case.work_len()), (1_313, 1_313, 21_008));
    assert!(10 * pending < case.output_len() && case.output_len() < 10 * (pending + 4));
}

/// Reading 29: the numbers stated.
#[test]
fn the_names_are_longer_than_work() {
    let case = named("reading-29-names-longer-than-work").case;
    assert_eq!((case.tape.len(), case.output_len(), case.work_len()), (1_117, 1_117, 17_872));
    // the group, then 61 repeats
    let names: usize = (0..=61).map(|repeats| "(m:)".len() + 400 + repeats).sum();
    assert_eq!(names, 26_939);
}
