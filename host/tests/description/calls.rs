//! Calls that are held to the reference, and descriptions to make them with.

use host::reference::description::{describe, Code};
use host::reference::sizes::LAYERS;
use host::testing::guard::{lend_input, lend_numbers};
use host::testing::library;
use host::testing::random::Random;
use host::testing::samples;

/// What the five numbers hold before a call; a refusal leaves it there.
const BEFORE: [u64; 5] = [0xA5A5_A5A5_A5A5_A5A5; 5];

/// The numbers of an accepted description.
fn numbers(code: &Code) -> [u64; 5] {
    [
        code.n as u64,
        code.r as u64,
        code.polynomial.into(),
        code.start.into(),
        code.k as u64,
    ]
}

/// Compares one answer and all its numbers; gives the refusal, or 0.
pub fn check(d: &[u8]) -> usize {
    let answer = lend_input(d, |d| {
        lend_numbers(BEFORE, |numbers| library::description(d, numbers))
    });
    let expected = match describe(d) {
        Ok(code) => (0, numbers(&code)),
        Err(refusal) => (refusal.into(), BEFORE),
    };
    assert_eq!(answer, expected, "{d:02x?}");
    expected.0 as usize
}

/// Checks `d` with the bytes from `place` on replaced.
pub fn check_with(d: &[u8], place: usize, bytes: &[u8]) -> usize {
    let mut changed = d.to_vec();
    changed[place..place + bytes.len()].copy_from_slice(bytes);
    check(&changed)
}

/// Gives accepted descriptions to a test, `count` for each n.
pub fn for_accepted(seed: u64, count: usize, mut test: impl FnMut(&mut Random, &[u8])) {
    let mut random = Random::new(seed);
    for n in LAYERS {
        for _ in 0..count {
            let d = samples::description(&mut random, n);
            test(&mut random, &d);
        }
    }
}

/// The length field of so many bytes.
pub fn length_field(bytes: usize) -> [u8; 2] {
    (bytes as u16).to_le_bytes()
}
