//! How much stack a call takes: the stack below the caller is painted, and the deepest byte that the call changed is looked for.
use std::hint::black_box;

/// What is painted; a call takes far less.
const PAINTED: usize = 512 << 10;
/// The thread's whole stack.
const STACK: usize = 2 << 20;
/// Not painted, since the frames of what paints and looks lie there; no smaller number is told.
const NEAR: usize = 512;
/// One after the other, so that a byte that the call leaves as it was painted shows with the other.
const COLOURS: [u8; 2] = [0xa5, 0x5a];

/// The bytes from the caller's frame down to the deepest that `call` changes, on a thread of its own. It is made twice.
pub fn depth(call: &mut (dyn FnMut() + Send)) -> usize {
    let measured = || COLOURS.map(|colour| once(call, colour)).into_iter().max();
    std::thread::scope(|scope| {
        let thread = std::thread::Builder::new().stack_size(STACK).spawn_scoped(scope, measured).expect("a thread");
        thread.join().expect("a call that ends").expect("two colours")
    })
}

#[inline(never)]
fn once(call: &mut dyn FnMut(), colour: u8) -> usize {
    let here = 0_u8;
    let top = black_box(&raw const here).cast_mut();
    paint(top, colour);
    call();
    deepest(top, colour)
}

#[inline(never)]
fn paint(top: *mut u8, colour: u8) {
    for below in NEAR..PAINTED {
        // SAFETY: the thread's own stack, which is longer, below all frames that are in use.
        unsafe { top.wrapping_sub(below).write_volatile(colour) };
    }
}

#[inline(never)]
fn deepest(top: *mut u8, colour: u8) -> usize {
    // SAFETY: as above; these bytes were painted.
    let is_changed = |below: &usize| unsafe { top.wrapping_sub(*below).read_volatile() } != colour;
    let found = (NEAR..PAINTED).rev().find(is_changed).unwrap_or(NEAR);
    assert!(found < PAINTED - 1, "more stack than was painted");
    found
}

#[cfg(test)]
mod tests {
    use super::*;

    #[inline(never)]
    fn takes<const BYTES: usize>() {
        black_box(&mut [1_u8; BYTES]);
    }

    #[test]
    fn more_stack_is_seen() {
        let [small, middle, large] = [depth(&mut takes::<2_000>), depth(&mut takes::<12_000>), depth(&mut takes::<100_000>)];
        assert!((2_000..3_500).contains(&small), "{small}");
        assert_eq!((middle - small) / 100, 100);
        assert!((100_000..101_500).contains(&large), "{large}");
    }
}
