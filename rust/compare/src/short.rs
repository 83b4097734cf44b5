//! Short tapes, all of them: of a few bytes, and of a few commands out of a small alphabet.
use reading::read;

/// Every code, its neighbours, small numbers and a letter.
const BYTES: [u8; 31] = [
    0x00, 0x01, 0x02, 0x03, 0x0f, 0x10, 0x11, 0x12, 0x13, 0x14, 0x15, 0x1f, 0x20, 0x21, 0x22, 0x23, 0x24, 0x25, 0x26, 0x27, 0x28, 0x29,
    0x2a, 0x2b, 0x2c, 0x2d, 0x30, 0x31, 0x32, b'a', 0xff,
];

/// All tapes of up to `most` of these bytes.
pub fn of_bytes(most: usize) -> Vec<Vec<u8>> {
    let mut all = vec![vec![]];
    let mut last = all.clone();
    for _ in 0..most {
        last = last.iter().flat_map(|tape| BYTES.map(|byte| [&tape[..], &[byte]].concat())).collect();
        all.extend(last.clone());
    }
    all
}

const SPAN: [u8; 8] = [1, 0, 0, 0, 2, 0, 0, 0];

fn command(code: u8, span: bool, operands: &[u8]) -> Vec<u8> {
    [&[code][..], if span { &SPAN } else { &[] }, operands].concat()
}

/// Commands over the atoms A (0), M (1) and `+` (2).
fn alphabet() -> Vec<Vec<u8>> {
    let spanned = |code, operands: &[u8]| command(code, true, operands);
    let nonterminal = |name, flags, args, alternatives| command(0x10, true, &[name, 0, flags, args, alternatives, 0]);
    let alternative = |attributes, condition, symbols| command(0x12, true, &[attributes, condition, 0, 0, 0, symbols, 0]);
    let mut all = vec![
        nonterminal(0, 0, 0, 1),
        nonterminal(1, 3, 1, 1),
        nonterminal(1, 0, 2, 0),
        nonterminal(0, 0, 0, 0),
        alternative(0, 0, 1),
        alternative(0, 0, 2),
        alternative(0, 1, 0),
        alternative(1, 0, 0),
        spanned(0x12, &[0, 0, 1, 2, 0, 0, 0]),
        command(0x11, false, &[0, 0]),
        command(0x11, false, &[1, 0]),
        command(0x13, false, &[0, 0, 0, 0, 0, 0, 0]),
        command(0x13, false, &[0, 0, 1, 2, 0, 1, 0]),
        spanned(0x14, &[0, 0, 0, 2, 0]),
        spanned(0x14, &[1, 0, 1, 2, 0]),
    ];
    all.extend([0x20, 0x21, 0x24, 0x30].into_iter().flat_map(|code| [spanned(code, &[0, 0]), spanned(code, &[1, 0])]));
    all.extend([spanned(0x20, &[2, 0]), spanned(0x22, &[2, 0]), spanned(0x23, &[3, 0]), spanned(0x31, &[0, 0])]);
    all.extend([spanned(0x25, &[0, 0, 1]), spanned(0x25, &[1, 0, 1]), spanned(0x25, &[1, 0, 2]), spanned(0x25, &[1, 0, 0])]);
    all.extend([spanned(0x26, &[1]), spanned(0x27, &[]), spanned(0x28, &[1, 0, 0]), spanned(0x29, &[0, 0]), spanned(0x29, &[1, 0])]);
    all.extend([spanned(0x2a, &[]), spanned(0x2b, &[]), spanned(0x2c, &[]), command(0x01, false, &[0, 0])]);
    all
}

/// All tapes of up to `most` of these commands behind the three atoms, each no longer than its first refusal.
pub fn of_commands(most: usize) -> Vec<Vec<u8>> {
    let (alphabet, front) = (alphabet(), [&[1, 1, 0, b'A', 1, 1, 0, b'M', 1, 1, 0, b'+'][..]].concat());
    let mut all = vec![front.clone()];
    let mut last = vec![front];
    for _ in 0..most {
        last = last.iter().flat_map(|tape| alphabet.iter().map(|command| [&tape[..], command].concat())).collect();
        all.extend(last.clone());
        last.retain(|tape| may_go_on(tape));
    }
    all
}

/// What stands behind a refusal before the tape's end changes nothing.
fn may_go_on(tape: &[u8]) -> bool {
    read(tape).err().is_none_or(|refusal| refusal.place.0 == tape.len() as u64)
}
