//! The exports `polar_decode_full`, `polar_decode_half` and `polar_decode_restarted`.

use crate::testing::library::call;

/// Declares an export, and a function that calls it.
macro_rules! decoder {
    ($export:ident, $name:ident) => {
        extern "C" {
            fn $export(
                description: *const u8,
                description_len: usize,
                channel: *const u8,
                channel_len: usize,
                trial_limit: u32,
                payload: *mut u8,
                payload_len: usize,
            ) -> u64;
        }

        /// Writes the packed payload; the answer is as in `number::decode_number`.
        pub fn $name(description: &[u8], channel: &[u8], limit: u32, payload: &mut [u8]) -> u64 {
            unsafe { call::decode($export, description, channel, limit, payload) }
        }
    };
}

decoder!(polar_decode_full, decode_full);
decoder!(polar_decode_half, decode_half);
decoder!(polar_decode_restarted, decode_restarted);
