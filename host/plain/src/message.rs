//! Bits, one per byte: packing highest bit first, the cyclic check, placing by the mask, and the
//! polar transform.

use crate::code::Code;
use crate::SIZE;

/// Packed bits, highest bit first.
pub fn unpack(bytes: &[u8], bits: &mut [u8]) {
    for (byte, bits) in bytes.iter().zip(bits.chunks_mut(8)) {
        for (i, bit) in bits.iter_mut().enumerate() {
            *bit = byte >> (7 - i) & 1;
        }
    }
}

pub fn pack(bits: &[u8], bytes: &mut [u8]) {
    for (bits, byte) in bits.chunks(8).zip(bytes) {
        let packed = bits.iter().fold(0, |packed, bit| packed << 1 | bit);
        *byte = packed << (8 - bits.len());
    }
}

/// The check of payload bits, as a number of r bits.
fn check(code: &Code, payload: &[u8]) -> u32 {
    let mut rest = code.start;
    for bit in payload {
        let out = (rest >> (code.r - 1) ^ u32::from(*bit)) & 1;
        rest = rest << 1 ^ (out.wrapping_neg() & code.polynomial);
    }
    rest & ((1 << code.r) - 1)
}

/// Writes the check bits after the payload's.
pub fn put_check(code: &Code, message: &mut [u8]) {
    let (payload, check_bits) = message.split_at_mut(code.k);
    let value = check(code, payload);
    for (bit, i) in check_bits.iter_mut().zip((0..code.r).rev()) {
        *bit = (value >> i & 1) as u8;
    }
}

/// Whether the bits after the payload's are their check.
pub fn passes(code: &Code, message: &[u8]) -> bool {
    let (payload, check_bits) = message.split_at(code.k);
    let value = check_bits
        .iter()
        .fold(0, |value, bit| value << 1 | u32::from(*bit));
    value == check(code, payload)
}

/// Puts the message's bits at the information indices, zeros elsewhere; without a branch, so that
/// no mask is mispredicted.
pub fn place(code: &Code, message: &[u8; SIZE], u: &mut [u8]) {
    let mut count = 0;
    for (bit, information) in u.iter_mut().zip(code.mask_bits()) {
        *bit = message[count % SIZE] & information.wrapping_neg();
        count += usize::from(information);
    }
}

/// Takes the bits at the information indices out.
pub fn take(code: &Code, u: &[u8; SIZE], message: &mut [u8; SIZE]) {
    let mut count = 0;
    for (bit, information) in u.iter().zip(code.mask_bits()) {
        message[count % SIZE] = *bit;
        count += usize::from(information);
    }
}

/// Of two halves, puts their exclusive-or in the place of the first.
pub fn combine(bits: &mut [u8]) {
    let (left, right) = bits.split_at_mut(bits.len() / 2);
    for (l, r) in left.iter_mut().zip(right) {
        *l ^= *r;
    }
}

pub fn transform(bits: &mut [u8]) {
    let mut size = 2;
    while size <= bits.len() {
        bits.chunks_exact_mut(size).for_each(combine);
        size *= 2;
    }
}
