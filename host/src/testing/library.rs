//! The codec's static libraries, called as C calls them. Here is `probe`, with what is exported for
//! tests only. The exports of `polar` have modules of their own: a test program links with a
//! library that has only those exports which it calls.

pub(crate) mod call;
mod decode;
mod encode;
mod hearing;
mod quantise;
mod resume;
mod sets;

pub use decode::{decode_full, decode_half, decode_restarted};
pub use encode::encode;
pub use hearing::{
    hearing_add, hearing_clear, hearing_decode_full, hearing_decode_restarted, hearing_open,
    hearing_preview,
};
pub use quantise::quantise;
pub use resume::resume;
pub use sets::{decode_sets_full, decode_sets_half, decode_sets_restarted};

/// A decoder with the call of `decode_full`, or `hearing_preview`, which has a state in the place of a
/// description.
pub type Decoder = fn(&[u8], &[u8], u32, &mut [u8]) -> u64;

/// A decoder with the call of `hearing_decode_full`.
pub type HearingDecoder = fn(&[u8], u32, &mut [u8]) -> u64;

/// A decoder with the call of `decode_sets_full`.
pub type SetDecoder = fn(&[u8], &[u8], u32, u32, &mut [u8]) -> u64;

extern "C" {
    fn probe_description(d: *const u8, len: usize, numbers: *mut u64) -> u64;
    fn probe_pack(bits: *const u8, bits_len: usize, bytes: *mut u8, bytes_len: usize) -> u64;
    fn probe_unpack(bytes: *const u8, bytes_len: usize, bits: *mut u8, bits_len: usize) -> u64;
    fn probe_mask_bit(mask: *const u8, len: usize, index: usize) -> u64;
    fn probe_ones(mask: *const u8, len: usize) -> u64;
    fn probe_place(
        mask: *const u8,
        mask_len: usize,
        message: *const u8,
        message_len: usize,
        u: *mut u8,
        u_len: usize,
    ) -> u64;
    fn probe_take_out(
        mask: *const u8,
        mask_len: usize,
        u: *const u8,
        u_len: usize,
        message: *mut u8,
        message_len: usize,
    ) -> u64;
}

// SAFETY of every call here and in the modules above: as `call` asks. Each pointer goes with the
// length of the slice that it comes from, the library reads and writes these bytes only, and it
// keeps no pointer.

/// Reads a description. Answers the refusal, or 0 where it is accepted: then the numbers become n, r,
/// the polynomial, the start and k.
pub fn description(d: &[u8], numbers: &mut [u64; 5]) -> u64 {
    unsafe { probe_description(d.as_ptr(), d.len(), numbers.as_mut_ptr()) }
}

/// Packs bits, one per byte, into exactly as many bytes as they take. Answers 0, or 1 where a
/// length or a bit is wrong.
pub fn pack(bits: &[u8], bytes: &mut [u8]) -> u64 {
    unsafe { probe_pack(bits.as_ptr(), bits.len(), bytes.as_mut_ptr(), bytes.len()) }
}

/// Unpacks as many bits as there is room for. Answers 0, or 1 where there are too few bytes.
pub fn unpack(bytes: &[u8], bits: &mut [u8]) -> u64 {
    unsafe { probe_unpack(bytes.as_ptr(), bytes.len(), bits.as_mut_ptr(), bits.len()) }
}

/// The mask's bit at an index, or 2 past its end.
pub fn mask_bit(mask: &[u8], index: usize) -> u64 {
    unsafe { probe_mask_bit(mask.as_ptr(), mask.len(), index) }
}

/// The number of ones in a mask of at most 65,536 bytes; the largest number for a longer one.
pub fn ones(mask: &[u8]) -> u64 {
    unsafe { probe_ones(mask.as_ptr(), mask.len()) }
}

/// Places the bits at the start of an array by a mask, packed. Answers the number of looks at a bit
/// of the mask; the largest number where the mask is longer than that of the longest code, the array
/// is shorter than the code or has other bytes than 0 and 1, or there is too little room.
pub fn place(mask: &[u8], message: &[u8], u: &mut [u8]) -> u64 {
    unsafe {
        probe_place(
            mask.as_ptr(),
            mask.len(),
            message.as_ptr(),
            message.len(),
            u.as_mut_ptr(),
            u.len(),
        )
    }
}

/// Takes a message out of bits by a mask. Answers the number of looks at a bit of the mask; the
/// largest number where there are too few bits or too little room.
pub fn take_out(mask: &[u8], u: &[u8], message: &mut [u8]) -> u64 {
    unsafe {
        probe_take_out(
            mask.as_ptr(),
            mask.len(),
            u.as_ptr(),
            u.len(),
            message.as_mut_ptr(),
            message.len(),
        )
    }
}
