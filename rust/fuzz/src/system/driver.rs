//! libFuzzer: it makes inputs, guided by which branches of the Rust they reach, and calls us with each.
use std::ffi::{c_char, c_int, CString};

type Input = extern "C" fn(*const u8, usize) -> c_int;

extern "C" {
    fn LLVMFuzzerRunDriver(count: *mut c_int, words: *mut *mut *mut c_char, input: Input) -> c_int;
    fn LLVMFuzzerMutate(data: *mut u8, length: usize, most: usize) -> usize;
    fn atexit(last: extern "C" fn()) -> c_int;
}

/// Runs it with these words of its command line; it ends the program, and `last` is called then.
pub fn run(words: &[String], last: extern "C" fn()) -> ! {
    let words: Vec<CString> = words.iter().map(|word| CString::new(word.as_str()).expect("a word without byte 0")).collect();
    let mut pointers: Vec<*mut c_char> = words.iter().map(|word| word.as_ptr().cast_mut()).collect();
    pointers.push(std::ptr::null_mut());
    let (mut count, mut first) = (words.len() as c_int, pointers.as_mut_ptr());
    // SAFETY: as main hands its words on: so many pointers to texts that end in 0, then null; all live till the end.
    unsafe {
        atexit(last);
        std::process::exit(LLVMFuzzerRunDriver(&mut count, &mut first, one))
    }
}

extern "C" fn one(data: *const u8, length: usize) -> c_int {
    // SAFETY: libFuzzer lends so many bytes for this call; of none the pointer may be null.
    let data = if length == 0 { &[] } else { unsafe { std::slice::from_raw_parts(data, length) } };
    crate::guided::one(data);
    0
}

/// libFuzzer looks for this name: every other input is changed by it, the rest by itself.
#[no_mangle]
pub extern "C" fn LLVMFuzzerCustomMutator(data: *mut u8, length: usize, most: usize, seed: u32) -> usize {
    if seed % 2 == 0 {
        // SAFETY: its own function, with what it has lent.
        return unsafe { LLVMFuzzerMutate(data, length, most) };
    }
    // SAFETY: libFuzzer lends room for `most` bytes, of which `length` are the input.
    let room = unsafe { std::slice::from_raw_parts_mut(data, most) };
    let changed = crate::guided::changed(&room[..length], seed.into());
    let length = changed.len().min(most);
    room[..length].copy_from_slice(&changed[..length]);
    length
}
