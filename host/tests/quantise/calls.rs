//! Calls of the library's quantiser, each compared with the reference.

use host::reference::number::quantise_numbers;
use host::reference::quantise::quantise;
use host::testing::guard::{lend_input, lend_numbers, lend_output, lend_reference};
use host::testing::library;

/// The bits of the peak; the refusal or 0, then the clipped count, a refusal's first index, or 0;
/// the output.
type Answer = (u32, [u64; 2], Vec<u8>);

/// What outputs hold before: no level, so that a byte left out is noticed.
const BEFORE: u8 = 0x80;

/// What the two numbers hold before, in each of their bytes.
const NUMBERS_BEFORE: [u64; 2] = [u64::from_ne_bytes([0xEE; 8]); 2];

/// The samples in lent bytes.
fn samples_in(bytes: &[u8]) -> &[f32] {
    // SAFETY: any bytes are a float.
    let (before, samples, after) = unsafe { bytes.align_to() };
    assert!(before.is_empty() && after.is_empty(), "lent out of place");
    samples
}

/// The library's answer.
fn run(scale: f32, samples: &[f32], before: &[u8]) -> Answer {
    let bytes: Vec<u8> = samples.iter().flat_map(|y| y.to_ne_bytes()).collect();
    let ((peak, numbers), output) = lend_input(&bytes, |lent| {
        lend_output(before, |output| {
            lend_numbers(NUMBERS_BEFORE, |numbers| {
                library::quantise(scale, samples_in(lent), output, numbers)
            })
        })
    });
    (peak.to_bits(), numbers, output)
}

/// The reference's answer.
fn expected(scale: f32, samples: &[f32], before: &[u8]) -> Answer {
    let (answer, output) = lend_reference(before, |output| quantise(scale, samples, output));
    let (peak, numbers) = quantise_numbers(&answer);
    (peak.to_bits(), numbers, output)
}

/// Compares one call in its answer and in each byte of its output; gives both.
pub fn check(scale: f32, samples: &[f32], length: usize) -> Answer {
    let before = vec![BEFORE; length];
    let answer = run(scale, samples, &before);
    assert_eq!(
        answer,
        expected(scale, samples, &before),
        "scale {scale:?}, {samples:?}, {length} bytes"
    );
    answer
}

/// Compares a call that must be accepted; gives the levels, the bits of the peak and the clipped
/// count.
pub fn accepted(scale: f32, samples: &[f32]) -> (Vec<i8>, u32, u64) {
    let (peak, [refusal, clipped], output) = check(scale, samples, samples.len());
    assert_eq!(refusal, 0, "scale {scale:?}, {samples:?}");
    (output.iter().map(|&b| b as i8).collect(), peak, clipped)
}

/// Compares a call that must be refused with this number and index.
pub fn refused(scale: f32, samples: &[f32], length: usize, numbers: [u64; 2]) {
    let answer = check(scale, samples, length);
    assert_eq!(answer, (0, numbers, vec![BEFORE; length]));
}
