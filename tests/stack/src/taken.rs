//! The stack below a frame is filled with a byte; after the call the lowest byte that changed tells how far the call went. A frame may have places
//! that it does not write, so a figure can be too small by what lies at its end and is never written.
use std::hint::black_box;

/// As much of the stack is watched; a call that takes more stops the program.
const WATCHED: usize = 512 * 1024;
/// What a filled byte holds.
const FILL: u8 = 0xA5;
/// Just below the frame: what the filling itself may use.
const SKIPPED: usize = 512;

/// Runs on a thread whose stack is larger than what is watched.
pub fn on_a_large_stack(report: fn()) {
    std::thread::Builder::new().stack_size(4 * WATCHED).spawn(report).expect("a thread").join().expect("its end");
}

/// The bytes of stack that a call takes, or what is not filled where it takes no more.
#[inline(never)]
pub fn taken(call: impl FnOnce()) -> usize {
    let mark = 0u8;
    let top = (&raw const mark).addr() - SKIPPED;
    let lowest = top - WATCHED;
    // The thread's stack is four times as large as what is watched, and nothing of it is in use below this frame.
    for at in lowest..top {
        unsafe { std::ptr::with_exposed_provenance_mut::<u8>(at).write_volatile(FILL) };
    }
    call();
    let first =
        (lowest..top).find(|&at| unsafe { std::ptr::with_exposed_provenance::<u8>(at).read_volatile() } != FILL);
    assert_ne!(first, Some(lowest), "more stack than is watched");
    black_box(&mark);
    first.map_or(SKIPPED, |at| top + SKIPPED - at)
}
