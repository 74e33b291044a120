//! Channel values: document 01, "A decoding pass" and its refusals 12 and 13.

use crate::reference::refusal::Refusal;

/// The largest magnitude of a channel value.
const LARGEST: i64 = 31;

/// Reads `size` bytes in two's complement, each from −31 to 31.
pub fn read_channel(bytes: &[u8], size: usize) -> Result<Vec<i64>, Refusal> {
    if bytes.len() != size {
        return Err(Refusal::Number(12));
    }
    let values: Vec<i64> = bytes.iter().map(|&byte| value(byte)).collect();
    match values.iter().position(|v| v.abs() > LARGEST) {
        Some(index) => Err(Refusal::At(13, index)),
        None => Ok(values),
    }
}

/// The nearest channel value.
pub fn clip(value: i64) -> i64 {
    value.clamp(-LARGEST, LARGEST)
}

/// A channel value as a byte in two's complement.
pub fn value_byte(value: i64) -> u8 {
    i8::try_from(value).expect("a channel value") as u8
}

/// A byte in two's complement.
fn value(byte: u8) -> i64 {
    if byte < 128 {
        i64::from(byte)
    } else {
        i64::from(byte) - 256
    }
}

#[cfg(test)]
mod tests {
    use super::*;

    #[test]
    fn bytes_are_in_twos_complement() {
        assert_eq!(
            read_channel(&[0x00, 0x01, 0xFF, 0x1F, 0xE1], 5),
            Ok(vec![0, 1, -1, 31, -31])
        );
        assert_eq!(
            [0x00, 0x7F, 0x80, 0xFF].map(value),
            [0, 127, -128, -1],
            "the ends of both halves"
        );
        assert!((-31..=31).all(|v| value(value_byte(v)) == v));
    }

    #[test]
    fn clipped_at_both_ends() {
        let clipped = [-62, -32, -31, 0, 31, 32, 62].map(clip);
        assert_eq!(clipped, [-31, -31, -31, 0, 31, 31, 31]);
    }

    /// Rows of the paper: 31 is allowed, 32 and −32 at index 7 are not.
    #[test]
    fn range() {
        let with = |byte| read_channel(&[0, 0, 0, 0, 0, 0, 0, byte], 8);
        assert_eq!(with(0x1F), Ok(vec![0, 0, 0, 0, 0, 0, 0, 31]));
        assert_eq!(with(0x20), Err(Refusal::At(13, 7)));
        assert_eq!(with(0xE0), Err(Refusal::At(13, 7)));
        assert_eq!(with(0xE1), Ok(vec![0, 0, 0, 0, 0, 0, 0, -31]));
    }

    #[test]
    fn the_first_fault_decides() {
        assert_eq!(read_channel(&[0x80; 7], 8), Err(Refusal::Number(12)));
        assert_eq!(read_channel(&[0x80; 9], 8), Err(Refusal::Number(12)));
        assert_eq!(read_channel(&[0, 0x80, 0x80], 3), Err(Refusal::At(13, 1)));
    }
}
