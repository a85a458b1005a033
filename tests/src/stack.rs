//! How much stack calls take, to the byte that they write lowest: the stack below them is
//! painted before, and looked at behind.

use std::hint::black_box;
use std::thread;

/// What the stack is painted with.
const PAINT: u64 = 0xA5C3_96F0_3C69_5A0F;

/// How many bytes are left unpainted below what is alive while others are.
const GAP: usize = 1024;

/// What this does, and how many bytes of stack it takes, at most so many: those below the
/// function that it is called from, its own included. Where it takes less, GAP is told.
pub fn taken<T: Send>(most: usize, calls: impl FnOnce() -> T + Send) -> (T, usize) {
    let ample = thread::Builder::new().stack_size(2 * most + 64 * GAP);
    thread::scope(|scope| {
        let measured = ample.spawn_scoped(scope, || measured(most, calls));
        measured.unwrap().join().unwrap()
    })
}

/// The same on this thread's stack, which has room for that.
#[inline(never)]
fn measured<T>(most: usize, calls: impl FnOnce() -> T) -> (T, usize) {
    let here = 0u64;
    let top = black_box(&here) as *const u64 as usize;
    let lowest = top - GAP - most / 8 * 8;
    paint(lowest, top - GAP);
    let result = apart(calls);
    (result, top - changed(lowest, top - GAP))
}

/// In a function of its own, so that nothing of the calls is alive while the stack is
/// painted.
#[inline(never)]
fn apart<T>(calls: impl FnOnce() -> T) -> T {
    black_box(calls())
}

/// Paints the stack between two addresses, both below what is alive.
#[inline(never)]
fn paint(from: usize, to: usize) {
    for at in (from..to).step_by(8) {
        // Within this thread's stack, and no function has it now.
        unsafe { (at as *mut u64).write_volatile(PAINT) };
    }
}

/// The lowest address between two at which the paint is gone; the upper one where it is gone
/// nowhere.
#[inline(never)]
fn changed(from: usize, to: usize) -> usize {
    let gone = |&at: &usize| {
        // Within this thread's stack.
        let seen = unsafe { (at as *const u64).read_volatile() };
        seen != PAINT
    };
    (from..to).step_by(8).find(gone).unwrap_or(to)
}
