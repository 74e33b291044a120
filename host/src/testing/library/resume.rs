//! The export `polar_resume`.

use crate::testing::library::call;

extern "C" {
    fn polar_resume(
        description: *const u8,
        description_len: usize,
        channel: *const u8,
        channel_len: usize,
        prefix: *const u8,
        prefix_len: usize,
        bits: *mut u8,
        bits_len: usize,
    ) -> u64;
}

/// Writes all N bits, one per byte; the answer is as in `number::resume_number`.
pub fn resume(description: &[u8], channel: &[u8], prefix: &[u8], bits: &mut [u8]) -> u64 {
    unsafe { call::resume(polar_resume, description, channel, prefix, bits) }
}
