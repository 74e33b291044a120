//! The exports of hearings, `polar_hearing_open` and those on its state.

use crate::testing::library::call;

extern "C" {
    fn polar_hearing_open(
        description: *const u8,
        description_len: usize,
        state: *mut u8,
        state_len: usize,
    ) -> u64;
    fn polar_hearing_add(
        state: *mut u8,
        state_len: usize,
        channel: *const u8,
        channel_len: usize,
    ) -> u64;
    fn polar_hearing_clear(state: *mut u8, state_len: usize) -> u64;
    fn polar_hearing_preview(
        state: *const u8,
        state_len: usize,
        channel: *const u8,
        channel_len: usize,
        trial_limit: u32,
        payload: *mut u8,
        payload_len: usize,
    ) -> u64;
}

/// Writes the state of a fresh hearing; the answer is as in `number::hearing_number`.
pub fn hearing_open(description: &[u8], state: &mut [u8]) -> u64 {
    unsafe { call::open(polar_hearing_open, description, state) }
}

/// Adds a vector to the state; the answer is as in `number::hearing_number`.
pub fn hearing_add(state: &mut [u8], channel: &[u8]) -> u64 {
    unsafe { call::add(polar_hearing_add, state, channel) }
}

/// Clears the state; the answer is as in `number::hearing_number`.
pub fn hearing_clear(state: &mut [u8]) -> u64 {
    unsafe { call::clear(polar_hearing_clear, state) }
}

/// Writes the packed payload; the answer is as in `number::decode_number`.
pub fn hearing_preview(state: &[u8], channel: &[u8], limit: u32, payload: &mut [u8]) -> u64 {
    unsafe { call::decode(polar_hearing_preview, state, channel, limit, payload) }
}

/// Declares an export that decodes, and a function that calls it.
macro_rules! decoder {
    ($export:ident, $name:ident) => {
        extern "C" {
            fn $export(
                state: *const u8,
                state_len: usize,
                trial_limit: u32,
                payload: *mut u8,
                payload_len: usize,
            ) -> u64;
        }

        /// Writes the packed payload; the answer is as in `number::decode_number`.
        pub fn $name(state: &[u8], limit: u32, payload: &mut [u8]) -> u64 {
            unsafe { call::decode_hearing($export, state, limit, payload) }
        }
    };
}

decoder!(polar_hearing_decode_full, hearing_decode_full);
decoder!(polar_hearing_decode_restarted, hearing_decode_restarted);
