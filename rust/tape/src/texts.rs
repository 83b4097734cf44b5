//! Which text suits which use: question 4.

/// Letter or `_`, then letters, digits, `_`; not `mut`, not `error`.
pub fn is_name(text: &[u8]) -> bool {
    let starts = |byte: u8| byte.is_ascii_alphabetic() || byte == b'_';
    let shaped = match text {
        [] => false,
        [first, rest @ ..] => starts(*first) && rest.iter().all(|&byte| starts(byte) || byte.is_ascii_digit()),
    };
    shaped && text != b"mut" && text != b"error"
}

/// Quoted and regex texts, and the right side of a condition.
pub fn is_literal(text: &[u8]) -> bool {
    text.iter().all(|byte| (0x20..=0x7e).contains(byte))
}

/// Action texts, keys and values.
pub fn is_ascii(text: &[u8]) -> bool {
    text.iter().all(|&byte| byte <= 0x7f)
}
