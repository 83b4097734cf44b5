//! A word about the call during which a page without access was touched.
use std::ffi::c_int;
use std::sync::atomic::{AtomicPtr, Ordering::Relaxed};

extern "C" {
    fn signal(number: c_int, handler: extern "C" fn(c_int)) -> usize;
}

// as Linux numbers them
const SIGBUS: c_int = 7;
const SIGSEGV: c_int = 11;

/// What tells of the call that is being made.
type Teller<'a> = &'a dyn Fn() -> String;

/// The teller of the call that is being made, or null.
static NOW: AtomicPtr<Teller<'static>> = AtomicPtr::new(std::ptr::null_mut());

/// From now on a fault during a call is told before the program ends by it.
pub fn watch() {
    for number in [SIGSEGV, SIGBUS] {
        // SAFETY: the handler ends the program. It prints, which takes locks and memory: a call of the archive holds neither.
        unsafe { signal(number, told) };
    }
}

extern "C" fn told(number: c_int) {
    let teller = NOW.swap(std::ptr::null_mut(), Relaxed);
    if !teller.is_null() {
        // SAFETY: `during` keeps the teller alive as long as it stands there.
        eprintln!("fault (signal {number}) in {}", unsafe { (*teller)() });
    }
    std::process::abort();
}

/// Takes the teller back, be it by a panic.
struct Over;

impl Drop for Over {
    fn drop(&mut self) {
        NOW.store(std::ptr::null_mut(), Relaxed);
    }
}

/// Makes the call; a fault in it is told so.
pub fn during(mut teller: Teller, call: impl FnOnce()) {
    let _over = Over;
    NOW.store((&raw mut teller).cast(), Relaxed);
    call();
}
