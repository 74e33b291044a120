//! The inputs that document 01 names, and D as request 2.1 of document 02 has it.

use crate::reference::channel::value_byte;

/// The description D: N = 8, information indices 3, 5, 6 and 7, k = 3, r = 1.
pub const D: [u8; 9] = [0x09, 0x00, 0x01, 0x00, 0x03, 0x01, 0x01, 0x00, 0xE8];

/// D as kind 4, with start 1.
pub const D_WITH_START: [u8; 11] = [
    0x0B, 0x00, 0x04, 0x00, 0x03, 0x01, 0x01, 0x00, 0x01, 0x00, 0xE8,
];

/// The mask of D.
pub const MASK_OF_D: [u8; 1] = [0xE8];

/// The channel values V: −1, 3, 2, 2, −2, −2, 3, 2.
pub const V: [u8; 8] = [0xFF, 0x03, 0x02, 0x02, 0xFE, 0xFE, 0x03, 0x02];

/// The channel values 4, −4, 4, −4, −4, 4, −4, 4: the signs of the codeword of A0 under D.
pub const RIGHT: [u8; 8] = [0x04, 0xFC, 0x04, 0xFC, 0xFC, 0x04, 0xFC, 0x04];

/// RIGHT with this value in the place of 4.
pub fn right(value: i64) -> [u8; 8] {
    RIGHT.map(|byte| value_byte(if byte == 4 { value } else { -value }))
}
