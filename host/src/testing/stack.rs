//! How much stack a call takes.

use std::hint::black_box;
use std::thread;

pub const KIB: usize = 1024;

/// The bytes below the caller's frame that are watched.
const DEPTH: usize = 256 * KIB;

const PAINT: u8 = 0xA5;

/// Runs a call on a thread of its own whose stack is painted first. Gives the bytes from the
/// caller's frame down to the lowest one that the call has changed.
pub fn stack_of(call: impl FnOnce() + Send) -> usize {
    on_stack(2 * DEPTH, || measure(call))
}

/// Runs a call on a thread with a stack of so many bytes; a call that needs more ends the program.
pub fn on_stack<A: Send>(size: usize, call: impl FnOnce() -> A + Send) -> A {
    thread::scope(|scope| {
        let builder = thread::Builder::new().stack_size(size);
        let thread = builder.spawn_scoped(scope, call).expect("a thread");
        thread.join().expect("an answer")
    })
}

fn measure(call: impl FnOnce()) -> usize {
    let local = 0u8;
    let top = black_box(&local) as *const u8 as usize;
    let bottom = paint();
    call();
    let lowest = lowest_changed(bottom, top);
    assert!(lowest > bottom, "{DEPTH} bytes are too few");
    top - lowest
}

/// Paints the stack below the caller's frame, and gives the lowest address painted.
#[inline(never)]
fn paint() -> usize {
    let mut room = [PAINT; DEPTH];
    black_box(&mut room).as_ptr() as usize
}

/// The lowest address without paint.
#[inline(never)]
fn lowest_changed(bottom: usize, top: usize) -> usize {
    // SAFETY: both addresses are of this thread's stack, which was in use from the one to the other
    // and stays mapped; nothing else writes there.
    let is_changed = |&address: &usize| unsafe { (address as *const u8).read_volatile() } != PAINT;
    (bottom..top).find(is_changed).unwrap_or(top)
}

#[cfg(test)]
mod tests {
    use super::*;

    #[inline(never)]
    fn fill(content: u8) -> u8 {
        black_box(&mut [content; 10_000])[5_000]
    }

    #[test]
    fn an_array_is_counted() {
        let taken = stack_of(|| {
            fill(7);
        });
        assert!((10_000..11_000).contains(&taken), "{taken}");
    }

    #[test]
    fn nothing_takes_little() {
        let taken = stack_of(|| ());
        assert!(taken < 1_000, "{taken}");
    }

    #[test]
    fn an_answer_comes_back() {
        assert_eq!(on_stack(64 * KIB, || fill(7)), 7);
    }
}
