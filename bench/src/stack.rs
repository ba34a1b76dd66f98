//! How much stack a call takes: the stack below it is filled with a pattern first, and looked at afterwards.

use std::hint::black_box;

const ROOM: usize = 1 << 19;
/// What the functions here may take themselves; it is left out of the pattern and counted as taken.
const OWN: usize = 1 << 10;
const PATTERN: u8 = 0xa5;

/// The lowest address of the room below this function.
#[inline(always)]
fn lowest(here: &u8) -> *mut u8 {
    (here as *const u8 as usize - OWN - ROOM) as *mut u8
}

/// Fills the stack below the caller with the pattern.
#[inline(never)]
fn paint() {
    let here = black_box(0u8);
    let start = lowest(&here);
    for i in 0..ROOM {
        unsafe { std::ptr::write_volatile(start.add(i), PATTERN) };
    }
}

/// How many bytes below the caller no longer hold it.
#[inline(never)]
fn overwritten() -> usize {
    let here = black_box(0u8);
    let start = lowest(&here);
    let kept = (0..ROOM).take_while(|&i| unsafe { std::ptr::read_volatile(start.add(i)) } == PATTERN).count();
    ROOM - kept + OWN
}

/// The bytes of stack that a call takes, to within a kilobyte.
pub fn stack_bytes(call: &mut dyn FnMut()) -> usize {
    paint();
    call();
    overwritten()
}
