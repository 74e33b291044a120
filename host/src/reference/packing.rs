//! Packing highest bit first: document 01, "Check and encoder". Bits are 0 or 1, one per byte.

/// Bit i stands at bit 7 − i mod 8 of byte i / 8; unused low bits of the last byte are zero.
pub fn pack(bits: &[u8]) -> Vec<u8> {
    let mut bytes = vec![0; packed_length(bits.len())];
    for (i, bit) in bits.iter().enumerate() {
        bytes[i / 8] += bit << (7 - i % 8);
    }
    bytes
}

/// The first `count` bits of packed bytes.
pub fn unpack(bytes: &[u8], count: usize) -> Vec<u8> {
    (0..count)
        .map(|i| bytes[i / 8] >> (7 - i % 8) & 1)
        .collect()
}

/// Bytes that `count` packed bits take, ceil(count/8).
pub fn packed_length(count: usize) -> usize {
    count.div_ceil(8)
}

#[cfg(test)]
mod tests {
    use super::*;

    #[test]
    fn the_first_bit_is_the_highest() {
        assert_eq!(pack(&[1, 0, 1]), [0xA0]);
        assert_eq!(pack(&[0, 0, 0, 0, 1, 1, 1, 1]), [0x0F]);
        assert_eq!(pack(&[0, 0, 0, 0, 0, 0, 0, 1, 1]), [0x01, 0x80]);
        assert_eq!(unpack(&[0xA0], 3), [1, 0, 1]);
        assert_eq!(unpack(&[0x01, 0x80], 9), [0, 0, 0, 0, 0, 0, 0, 1, 1]);
    }

    #[test]
    fn lengths_are_rounded_up() {
        let lengths = [0, 1, 7, 8, 9, 16, 17].map(|count| pack(&vec![0; count]).len());
        assert_eq!(lengths, [0, 1, 1, 1, 2, 2, 3]);
    }

    #[test]
    fn unpack_undoes_pack() {
        for number in 0..1u32 << 12 {
            let bits: Vec<u8> = (0..12).map(|i| (number >> i & 1) as u8).collect();
            assert_eq!(unpack(&pack(&bits), 12), bits);
        }
    }
}
