//! How much stack a call into the proved program needs: memory below this frame is painted, the call is made, and the
//! lowest byte that has lost its paint is looked for.

use std::hint::black_box;

const SIZE: usize = 512 * 1024;
const PAINT: u8 = 0xa5;

/// Bytes of stack that `run` used, its caller's frame included.
pub fn used(run: impl FnOnce() + Send) -> usize {
    let used = std::thread::scope(|scope| {
        let thread = std::thread::Builder::new().stack_size(4 * SIZE);
        let handle = thread.spawn_scoped(scope, || below(run)).expect("a thread");
        handle.join().expect("the thread ends")
    });
    assert!(used < SIZE, "more stack was used than was painted");
    used
}

#[inline(never)]
fn below(run: impl FnOnce()) -> usize {
    let top = 0u8;
    let base = paint();
    run();
    let mut untouched = 0;
    // SAFETY: the bytes lie in this thread's stack, below this frame, where `paint` has written.
    while untouched < SIZE && unsafe { std::ptr::read_volatile((base + untouched) as *const u8) } == PAINT {
        untouched += 1;
    }
    black_box(&raw const top) as usize - (base + untouched)
}

#[inline(never)]
fn paint() -> usize {
    let mut room = [0u8; SIZE];
    for byte in room.iter_mut() {
        // SAFETY: the reference is good for one byte.
        unsafe { std::ptr::write_volatile(byte, PAINT) };
    }
    black_box(room.as_ptr()) as usize
}
