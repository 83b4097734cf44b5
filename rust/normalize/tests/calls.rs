//! Each call on small tapes written out by hand: the answer, and what both buffers hold afterwards.
use normalize::{
    levels, levels_words, macros, macros_words, resolve, resolve_words, validate, validate_words, whole, whole_words, work_len, Refusal,
    WORDS,
};

const ATOM_A: [u8; 4] = [0x01, 1, 0, b'A'];
const EXTERN_A: [u8; 11] = [0x30, 7, 0, 0, 0, 8, 0, 0, 0, 0, 0];

/// `A = A`, at 1 to 2, with one alternative of one symbol at 3 to 4.
fn nonterminal_a(symbol: u8) -> Vec<u8> {
    let head = [0x10, 1, 0, 0, 0, 2, 0, 0, 0, 0, 0, 0, 0, 1, 0];
    let alternative = [0x12, 0, 0, 0, 0, 0, 0, 0, 0, 0, 0, 0, 0, 0, 1, 0];
    let inner = [symbol, 3, 0, 0, 0, 4, 0, 0, 0, 0, 0];
    [&head[..], &alternative, &inner].concat()
}

type Answer = Result<usize, Refusal>;

/// The answer of a call, and both buffers, which held 0xaa before.
fn left(output: usize, work: usize, call: impl Fn(&mut [u8], &mut [u8]) -> Answer) -> (Answer, Vec<u8>, Vec<u8>) {
    let (mut output, mut work) = (vec![0xaa; output], vec![0xaa; work]);
    let answer = call(&mut output, &mut work);
    (answer, output, work)
}

/// The same of resolving.
fn run(tape: &[u8], output: usize, work: usize) -> (Answer, Vec<u8>, Vec<u8>) {
    left(output, work, |output, work| resolve(tape, output, work))
}

#[test]
fn the_empty_tape_is_an_empty_tree() {
    assert_eq!(run(&[], 0, 0), (Ok(0), vec![], vec![]));
    assert_eq!(run(&[], 3, 24), (Ok(0), vec![0xaa; 3], vec![0; 24]));
}

#[test]
fn a_name_becomes_a_nonterminal() {
    let tape = [&ATOM_A[..], &nonterminal_a(0x20)].concat();
    let tree = [&ATOM_A[..], &nonterminal_a(0x24), &[0xaa; 2]].concat();
    let need = work_len(tape.len(), tape.len() + 2);
    assert_eq!(run(&tape, tape.len() + 2, need), (Ok(tape.len()), tree, vec![0; need]));
}

#[test]
fn a_nonterminal_and_a_terminal_of_one_name_are_refused() {
    let tape = [&ATOM_A[..], &nonterminal_a(0x20), &EXTERN_A].concat();
    let need = work_len(tape.len(), 100);
    let no = Err(Refusal { number: 6, place: (7, 8) });
    assert_eq!(run(&tape, 100, need), (no, vec![0xaa; 100], vec![0; need]));
}

#[test]
fn an_output_too_short_is_refused() {
    let tape = [&ATOM_A[..], &nonterminal_a(0x20)].concat();
    let (output, need) = (tape.len() - 1, work_len(tape.len(), tape.len() - 1));
    let no = Err(Refusal { number: 21, place: (0, 0) });
    assert_eq!(run(&tape, output, need), (no, vec![0xaa; output], vec![0; need]));
}

#[test]
fn work_too_short_stays_as_it_is() {
    let need = work_len(ATOM_A.len(), 5);
    let no = Err(Refusal { number: 1, place: (0, 0) });
    assert_eq!(run(&ATOM_A, 5, need - 1), (no, vec![0xaa; 5], vec![0xaa; need - 1]));
    assert_eq!(run(&ATOM_A, 5, need).0, Ok(4));
}

/// Long work is looked at before it is cleared, block by block.
#[test]
fn long_work_is_zero_wherever_it_was_not() {
    for long in [(2 << 20) - 1, 2 << 20, (2 << 20) + 1, (2 << 20) + 4_097] {
        for place in [0, 1, 4_095, 4_096, 1 << 20, long - 4_097, long - 4_096, long - 2, long - 1] {
            let mut work = vec![0; long];
            work[place] = 1;
            assert_eq!(validate(&ATOM_A, &mut work), Ok(ATOM_A.len()));
            assert!(work.iter().all(|&byte| byte == 0), "{long} bytes, {place}");
        }
    }
}

/// The answer of validating, and work, which held 0xaa before.
fn check(tape: &[u8], work: usize) -> (Answer, Vec<u8>) {
    let mut work = vec![0xaa; work];
    let answer = validate(tape, &mut work);
    (answer, work)
}

#[test]
fn validating_asks_1_to_4_and_no_more() {
    let twice = [&ATOM_A[..], &EXTERN_A, &EXTERN_A].concat();
    let need = work_len(twice.len(), 0);
    assert_eq!(check(&twice, need), (Ok(twice.len()), vec![0; need]));
    assert_eq!(check(&twice, need - 1), (Err(Refusal { number: 1, place: (0, 0) }), vec![0xaa; need - 1]));
    assert_eq!(check(&[0x01, 1, 0, b'A', 0xff], 40), (Err(Refusal { number: 2, place: (4, 4) }), vec![0; 40]));
}

/// Every word of an answer is written, whatever it held.
#[test]
fn each_word_is_written() {
    let mut answer = [7; WORDS];
    validate_words(&ATOM_A, &mut [0; 32], &mut answer);
    assert_eq!(answer, [1, 4, 0, 0, 0]);
    resolve_words(&[0x30], &mut [], &mut [0; 8], &mut answer);
    assert_eq!(answer, [0, 2, 0, 0, 0]);
    resolve_words(&ATOM_A, &mut [], &mut [], &mut answer);
    assert_eq!(answer, [0, 1, 0, 0, 0]);
    answer = [7; WORDS];
    levels_words(&ATOM_A, &mut [0; 4], &mut [0; 64], &mut answer);
    assert_eq!(answer, [1, 4, 0, 0, 0]);
    levels_words(&[0x30], &mut [], &mut [0; 8], &mut answer);
    assert_eq!(answer, [0, 2, 0, 0, 0]);
    answer = [7; WORDS];
    macros_words(&ATOM_A, 0, &mut [0; 4], &mut [0; 64], &mut answer);
    assert_eq!(answer, [1, 4, 0, 0, 0]);
    macros_words(&[0x30], 0, &mut [], &mut [0; 8], &mut answer);
    assert_eq!(answer, [0, 2, 0, 0, 0]);
    answer = [7; WORDS];
    whole_words(&ATOM_A, 0, &mut [0; 4], &mut [0; 64], &mut answer);
    assert_eq!(answer, [1, 4, 0, 0, 0]);
    whole_words(&[0x30], 0, &mut [], &mut [0; 8], &mut answer);
    assert_eq!(answer, [0, 2, 0, 0, 0]);
}

/// As docs/TAPE.md says of it.
#[test]
fn the_example_is_resolved() {
    let tape = include_bytes!("../../../docs/examples/listing.tape");
    let mut tree = tape.to_vec();
    tree[49] = 0x21;
    let need = work_len(71, 71);
    assert_eq!(run(tape, 71, need), (Ok(71), tree, vec![0; need]));
}

/// The atoms E, assoc, k and the side; E at 1 to 2, whose alternative at 5 to 6 has that side and names E.
fn sided(side: &[u8]) -> Vec<u8> {
    let atoms = [b"E", &b"assoc"[..], b"k", side].map(|text| [&[0x01, text.len() as u8, 0][..], text].concat()).concat();
    let head = [0x10, 1, 0, 0, 0, 2, 0, 0, 0, 0, 0, 3, 0, 1, 0];
    let alternative = [0x12, 5, 0, 0, 0, 6, 0, 0, 0, 1, 0, 0, 0, 0, 1, 0];
    let inside = [0x13, 1, 0, 1, 2, 0, 3, 0, 0x20, 7, 0, 0, 0, 8, 0, 0, 0, 0, 0];
    [&atoms[..], &head, &alternative, &inside].concat()
}

/// What levels leave, work being just long enough.
fn level(tape: &[u8], output: usize) -> (Answer, Vec<u8>, Vec<u8>) {
    left(output, work_len(tape.len(), output), |output, work| levels(tape, output, work))
}

/// A side alone is at level 0, the only one: the attribute goes, the name stays.
#[test]
fn the_only_level_keeps_its_name() {
    let tape = sided(b"all");
    let (start, end) = (tape.len() - 19, tape.len() - 11);
    let mut tree = [&tape[..start], &tape[end..], &[0xaa; 8]].concat();
    (tree[start - 7], tree[start]) = (0, 0x24);
    assert_eq!(level(&tape, tape.len()), (Ok(tape.len() - 8), tree, vec![0; work_len(tape.len(), tape.len())]));
}

#[test]
fn a_side_that_cannot_be_is_refused() {
    for (side, number) in [(&b"left"[..], 16), (b"right", 16), (b"none", 16), (b"both", 15), (b"", 15)] {
        let tape = sided(side);
        let no = Err(Refusal { number, place: (5, 6) });
        assert_eq!(level(&tape, tape.len()), (no, vec![0xaa; tape.len()], vec![0; work_len(tape.len(), tape.len())]));
    }
}

/// The tree is shorter than the tape, but the resolved tree isn't.
#[test]
fn the_resolved_tree_must_fit_too() {
    let tape = sided(b"all");
    assert_eq!(level(&tape, tape.len() - 1).0, Err(Refusal { number: 21, place: (0, 0) }));
    assert_eq!(level(&sided(b"left"), tape.len()).0, Err(Refusal { number: 21, place: (0, 0) }));
}

type Call = fn(&[u8], u16, &mut [u8], &mut [u8]) -> Answer;

/// The calls that expand macros.
const EXPANDING: [Call; 2] = [macros, whole];

/// The same of such a call.
fn expand(call: Call, tape: &[u8], limit: u16, output: usize) -> (Answer, Vec<u8>, Vec<u8>) {
    left(output, work_len(tape.len(), output), |output, work| call(tape, limit, output, work))
}

/// Document 01's case: the star needs two rounds.
#[test]
fn the_example_is_expanded() {
    let tape = include_bytes!("../../../docs/examples/listing.tape");
    let work = vec![0; work_len(tape.len(), 400)];
    for call in EXPANDING {
        let (answer, tree, left) = expand(call, tape, 2, 400);
        let length = answer.expect("a tree");
        assert!(tree[..length].starts_with(&tape[..8]) && tree[length..].iter().all(|&byte| byte == 0xaa) && left == work);
        assert_eq!(expand(call, tape, 65_535, 400), (answer, tree, work.clone()));
        for limit in [0, 1] {
            assert_eq!(expand(call, tape, limit, 400), (Err(Refusal { number: 18, place: (4, 6) }), vec![0xaa; 400], work.clone()));
        }
        let no = Err(Refusal { number: 21, place: (0, 0) });
        assert_eq!(expand(call, tape, 2, length - 1), (no, vec![0xaa; length - 1], vec![0; work_len(tape.len(), length - 1)]));
    }
}

/// What is left without macros and repeats is the resolved tree.
#[test]
fn nothing_to_expand_needs_no_round() {
    let tape = [&ATOM_A[..], &nonterminal_a(0x20)].concat();
    let tree = [&ATOM_A[..], &nonterminal_a(0x24)].concat();
    for call in EXPANDING {
        assert_eq!(expand(call, &tape, 0, tape.len()), (Ok(tape.len()), tree.clone(), vec![0; work_len(tape.len(), tape.len())]));
    }
}

/// The whole call asks for levels, the call for macros alone doesn't.
#[test]
fn the_whole_makes_levels() {
    let (fine, wrong) = (sided(b"all"), sided(b"left"));
    assert_eq!(expand(whole, &fine, 0, fine.len()), level(&fine, fine.len()));
    assert_eq!(expand(whole, &wrong, 0, wrong.len()), level(&wrong, wrong.len()));
    assert_eq!(expand(macros, &wrong, 0, wrong.len()).0, Ok(wrong.len()));
    assert_eq!(expand(whole, &fine, 0, fine.len() - 1).0, Err(Refusal { number: 21, place: (0, 0) }));
}

#[test]
fn no_length_of_work_wraps() {
    assert_eq!(work_len(3, 4), 56);
    assert_eq!(work_len(0, usize::MAX / 8), usize::MAX - 7);
    assert_eq!(work_len(1, usize::MAX / 8), usize::MAX);
    assert_eq!(work_len(usize::MAX, 0), usize::MAX);
    assert_eq!(work_len(usize::MAX, usize::MAX), usize::MAX);
}
