//! Lends buffers to the library between guard bytes.

use std::hint::black_box;

const GUARD: [u8; 64] = [0xA5; 64];

/// Lends a copy of `content` for writing. Answers what the call answered and the content after it;
/// panics where a byte outside was written.
pub fn lend_output<A>(content: &[u8], call: impl FnOnce(&mut [u8]) -> A) -> (A, Vec<u8>) {
    let mut buffer = [&GUARD, content, &GUARD].concat();
    let answer = call(&mut buffer[GUARD.len()..GUARD.len() + content.len()]);
    // Read again what stands in memory: by its references the compiler would take for granted
    // that the library keeps to its buffers.
    (answer, guarded(&black_box(buffer)).to_vec())
}

/// Lends a copy of some numbers for writing. Answers what the call answered and the numbers after it.
pub fn lend_numbers<A, const COUNT: usize>(
    before: [u64; COUNT],
    call: impl FnOnce(&mut [u64; COUNT]) -> A,
) -> (A, [u64; COUNT]) {
    let bytes = before.map(u64::to_ne_bytes).concat();
    let ((answer, after), _) = lend_output(&bytes, |lent| {
        let numbers = numbers_in(lent);
        let answer = call(numbers);
        (answer, *black_box(numbers))
    });
    (answer, after)
}

/// The numbers in lent bytes.
fn numbers_in<const COUNT: usize>(bytes: &mut [u8]) -> &mut [u64; COUNT] {
    // SAFETY: any bytes are a number.
    let (before, numbers, after) = unsafe { bytes.align_to_mut() };
    assert!(before.is_empty() && after.is_empty(), "lent out of place");
    numbers.try_into().expect("as many numbers")
}

/// Lends a copy of `content` for reading. Answers what the call answered; panics where any byte
/// was written.
pub fn lend_input<A>(content: &[u8], call: impl FnOnce(&[u8]) -> A) -> A {
    let (answer, after) = lend_output(content, |lent| call(lent));
    assert_eq!(after, content, "written into an input");
    answer
}

/// Lends a copy of `content` to the reference. Answers what the call answered and the content after
/// it; panics where a refusal has written.
pub fn lend_reference<A, R>(
    content: &[u8],
    call: impl FnOnce(&mut [u8]) -> Result<A, R>,
) -> (Result<A, R>, Vec<u8>) {
    let mut output = content.to_vec();
    let answer = call(&mut output);
    if answer.is_err() {
        assert_eq!(output, content, "a refusal writes nothing");
    }
    (answer, output)
}

/// What stands between the guard bytes.
fn guarded(buffer: &[u8]) -> &[u8] {
    let (before, rest) = buffer.split_at(GUARD.len());
    let (content, after) = rest.split_at(rest.len() - GUARD.len());
    assert_eq!(before, GUARD, "written before the buffer");
    assert_eq!(after, GUARD, "written past the buffer");
    content
}

#[cfg(test)]
mod tests {
    use super::*;

    /// A buffer of three bytes between guard bytes, with one byte written at `place`.
    fn written_at(place: usize) -> Vec<u8> {
        let mut buffer = [&GUARD, &[1, 2, 3][..], &GUARD].concat();
        buffer[place] = 7;
        buffer
    }

    #[test]
    fn gives_answer_and_content() {
        let write = |lent: &mut [u8]| {
            lent[1] = 7;
            lent.len()
        };
        assert_eq!(lend_output(&[1, 2, 3], write), (3, vec![1, 7, 3]));
        assert_eq!(lend_input(&[1, 2, 3], |lent| lent[2]), 3);
        assert_eq!(guarded(&written_at(64)), [7, 2, 3]);
        assert_eq!(guarded(&written_at(66)), [1, 2, 7]);
        let write = |numbers: &mut [u64; 3]| {
            numbers[1] = 7;
            numbers[2]
        };
        assert_eq!(lend_numbers([1, 2, 3], write), (3, [1, 7, 3]));
    }

    #[test]
    #[should_panic(expected = "a refusal writes nothing")]
    fn notices_a_refusal_that_writes() {
        let _ = lend_reference(&[1, 2, 3], |lent| {
            lent[1] = 7;
            Err::<(), ()>(())
        });
    }

    #[test]
    #[should_panic(expected = "before the buffer")]
    fn notices_a_write_before() {
        guarded(&written_at(63));
    }

    #[test]
    #[should_panic(expected = "past the buffer")]
    fn notices_a_write_past() {
        guarded(&written_at(67));
    }
}
