//! The export `polar_encode`.

use crate::testing::library::call;

extern "C" {
    fn polar_encode(
        description: *const u8,
        description_len: usize,
        payload: *const u8,
        payload_len: usize,
        codeword: *mut u8,
        codeword_len: usize,
    ) -> u64;
}

/// Writes a packed codeword; the answer is as in `number::encode_number`.
pub fn encode(description: &[u8], payload: &[u8], codeword: &mut [u8]) -> u64 {
    unsafe { call::encode(polar_encode, description, payload, codeword) }
}
