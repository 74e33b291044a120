//! What a call of a decoder takes, and the number that it gives.

use host::reference::description::{describe, mask_of, Code};
use host::reference::encode::codeword;
use host::reference::packing::{pack, packed_length};
use host::testing::random::Random;

/// The code of an accepted description.
pub fn code_of(d: &[u8]) -> Code {
    describe(d).expect("a code")
}

/// The codeword of a random payload, and the payload packed.
pub fn sent(random: &mut Random, d: &[u8]) -> (Vec<u8>, Vec<u8>) {
    let code = code_of(d);
    let payload = random.bits(code.k);
    (codeword(&code, mask_of(d), &payload), pack(&payload))
}

/// A buffer for the payload, with any content.
pub fn room(random: &mut Random, d: &[u8]) -> Vec<u8> {
    random.bytes(packed_length(code_of(d).k))
}

/// A trial limit that is allowed, of at most `most`.
pub fn limit(random: &mut Random, d: &[u8], most: usize) -> u32 {
    random.between(1, most.min(code_of(d).information() + 1)) as u32
}

/// An answer from its parts.
pub fn number(refusal: u64, middle: u64, steps: u64) -> u64 {
    refusal + (middle << 8) + (steps << 32)
}
