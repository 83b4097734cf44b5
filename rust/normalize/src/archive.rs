//! The boundary to the archive, and this crate's only place of `unsafe`: which functions it exports, and how many words an answer has.
#![allow(unsafe_code)]

/// How many words an answer has.
pub const WORDS: usize = 5;

/// 1, length, then zeros; or 0, number, place, place, then zeros.
pub type Words = [u64; WORDS];

extern "C" {
    fn normalize_validate(tape: *const u8, tape_len: usize, work: *mut u8, work_len: usize, answer: *mut Words);

    fn normalize_resolve(
        tape: *const u8,
        tape_len: usize,
        output: *mut u8,
        output_len: usize,
        work: *mut u8,
        work_len: usize,
        answer: *mut Words,
    );

    fn normalize_levels(
        tape: *const u8,
        tape_len: usize,
        output: *mut u8,
        output_len: usize,
        work: *mut u8,
        work_len: usize,
        answer: *mut Words,
    );

    fn normalize_macros(
        tape: *const u8,
        tape_len: usize,
        limit: u16,
        output: *mut u8,
        output_len: usize,
        work: *mut u8,
        work_len: usize,
        answer: *mut Words,
    );

    fn normalize_whole(
        tape: *const u8,
        tape_len: usize,
        limit: u16,
        output: *mut u8,
        output_len: usize,
        work: *mut u8,
        work_len: usize,
        answer: *mut Words,
    );
}

/// As [`crate::validate`], with the words as the archive writes them.
///
/// ```
/// // the atom A, without an item
/// let (tape, mut answer) = (&[0x01, 1, 0, b'A'], [7; normalize::WORDS]);
/// normalize::validate_words(tape, &mut [0; 32], &mut answer);
/// assert_eq!(answer, [1, 4, 0, 0, 0]);
/// ```
pub fn validate_words(tape: &[u8], work: &mut [u8], answer: &mut Words) {
    // SAFETY: the export takes two slices, each by pointer and length, and an array, and asks nothing else of them.
    unsafe { normalize_validate(tape.as_ptr(), tape.len(), work.as_mut_ptr(), work.len(), answer) }
}

/// As [`crate::resolve`], with the words as the archive writes them.
///
/// ```
/// // the atom A, without an item
/// let (tape, mut answer) = (&[0x01, 1, 0, b'A'], [7; normalize::WORDS]);
/// normalize::resolve_words(tape, &mut [0; 4], &mut [0; 64], &mut answer);
/// assert_eq!(answer, [1, 4, 0, 0, 0]);
/// ```
pub fn resolve_words(tape: &[u8], output: &mut [u8], work: &mut [u8], answer: &mut Words) {
    // SAFETY: the export takes three slices, each by pointer and length, and an array, and asks nothing else of them.
    unsafe {
        normalize_resolve(tape.as_ptr(), tape.len(), output.as_mut_ptr(), output.len(), work.as_mut_ptr(), work.len(), answer);
    }
}

/// As [`crate::levels`], with the words as the archive writes them.
///
/// ```
/// // the atom A, without an item
/// let (tape, mut answer) = (&[0x01, 1, 0, b'A'], [7; normalize::WORDS]);
/// normalize::levels_words(tape, &mut [0; 4], &mut [0; 64], &mut answer);
/// assert_eq!(answer, [1, 4, 0, 0, 0]);
/// ```
pub fn levels_words(tape: &[u8], output: &mut [u8], work: &mut [u8], answer: &mut Words) {
    // SAFETY: the export takes three slices, each by pointer and length, and an array, and asks nothing else of them.
    unsafe {
        normalize_levels(tape.as_ptr(), tape.len(), output.as_mut_ptr(), output.len(), work.as_mut_ptr(), work.len(), answer);
    }
}

/// As [`crate::macros`], with the words as the archive writes them.
///
/// ```
/// // the atom A, without an item
/// let (tape, mut answer) = (&[0x01, 1, 0, b'A'], [7; normalize::WORDS]);
/// normalize::macros_words(tape, 64, &mut [0; 4], &mut [0; 64], &mut answer);
/// assert_eq!(answer, [1, 4, 0, 0, 0]);
/// ```
pub fn macros_words(tape: &[u8], limit: u16, output: &mut [u8], work: &mut [u8], answer: &mut Words) {
    let (tape, tape_len) = (tape.as_ptr(), tape.len());
    // SAFETY: the export takes three slices, each by pointer and length, a number and an array, and asks nothing else of them.
    unsafe {
        normalize_macros(tape, tape_len, limit, output.as_mut_ptr(), output.len(), work.as_mut_ptr(), work.len(), answer);
    }
}

/// As [`crate::whole`], with the words as the archive writes them.
///
/// ```
/// // the atom A, without an item
/// let (tape, mut answer) = (&[0x01, 1, 0, b'A'], [7; normalize::WORDS]);
/// normalize::whole_words(tape, 64, &mut [0; 4], &mut [0; 64], &mut answer);
/// assert_eq!(answer, [1, 4, 0, 0, 0]);
/// ```
pub fn whole_words(tape: &[u8], limit: u16, output: &mut [u8], work: &mut [u8], answer: &mut Words) {
    let (tape, tape_len) = (tape.as_ptr(), tape.len());
    // SAFETY: the export takes three slices, each by pointer and length, a number and an array, and asks nothing else of them.
    unsafe {
        normalize_whole(tape, tape_len, limit, output.as_mut_ptr(), output.len(), work.as_mut_ptr(), work.len(), answer);
    }
}
