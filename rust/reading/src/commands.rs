//! A tape as its commands, one after another, without asking what may stand where.
use std::ops::Range;

/// The commands of a tape, as far as they are known and whole; the rest, if any, as one more range.
pub fn split(tape: &[u8]) -> Vec<Range<usize>> {
    let (mut found, mut at) = (vec![], 0);
    while at < tape.len() {
        let end = at + length(&tape[at..]).unwrap_or(tape.len() - at);
        found.push(at..end);
        at = end;
    }
    found
}

/// The length of the first command, if it is known and whole.
fn length(rest: &[u8]) -> Option<usize> {
    let mut length = 1 + crate::operand_bytes(rest[0])?;
    if rest[0] == 0x01 {
        length += usize::from(u16::from_le_bytes([*rest.get(1)?, *rest.get(2)?]));
    }
    (length <= rest.len()).then_some(length)
}

/// One line for each command: offset, code, operands; an atom's text in quotes.
pub fn shown(tape: &[u8]) -> String {
    let line = |range: Range<usize>| {
        let command = &tape[range.clone()];
        let rest = match command {
            [0x01, low, high, text @ ..] => format!("{} \"{}\"", hex(&[*low, *high]), text.escape_ascii()),
            [_, operands @ ..] => hex(operands),
            [] => String::new(),
        };
        format!("  {:5}  {:02x} {rest}\n", range.start, command[0])
    };
    split(tape).into_iter().map(line).collect()
}

/// Pairs of digits, upper case; `-` for nothing.
pub fn hex(bytes: &[u8]) -> String {
    if bytes.is_empty() {
        return "-".to_string();
    }
    bytes.iter().map(|byte| format!("{byte:02X}")).collect()
}
