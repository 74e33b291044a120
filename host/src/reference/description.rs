//! Code descriptions: document 01, "Code description", and document 02, request 2.1.

mod code;
mod mask;
mod record;

pub use code::Code;
pub use mask::{count_information, information_indices, is_information};
pub use record::{record, record_with_start, with_start};

use crate::reference::sizes::{LAYERS, LONGEST_BYTES};

/// A code, or the number of the refusal.
pub type Description = Result<Code, u8>;

/// The refusals of a description, in the order in which they apply.
pub const REFUSALS: [usize; 9] = [1, 2, 3, 4, 5, 6, 7, 25, 8];

/// The kinds of descriptions: document 01's, which means start 0, and request 2.1's, which says its
/// start.
const WITHOUT_START: u16 = 1;
const WITH_START: u16 = 4;

/// Bytes before the mask of each kind.
const HEADER: usize = 8;
const HEADER_WITH_START: usize = 10;

/// The bytes of the longest description.
pub const LONGEST_DESCRIPTION: usize = HEADER_WITH_START + LONGEST_BYTES;

/// Bytes before the mask of a description of this kind; nothing where no description has it.
pub fn header_length(kind: u16) -> Option<usize> {
    match kind {
        WITHOUT_START => Some(HEADER),
        WITH_START => Some(HEADER_WITH_START),
        _ => None,
    }
}

/// Reads a description; the refusals stand in the order of `REFUSALS`.
pub fn describe(bytes: &[u8]) -> Description {
    if is_too_short(bytes) {
        return Err(1);
    }
    let length = usize::from(word(bytes, 0));
    if length != bytes.len() {
        return Err(2);
    }
    let Some(header) = header_length(kind_of(bytes)) else {
        return Err(3);
    };
    let n = usize::from(bytes[4]);
    if !LAYERS.contains(&n) {
        return Err(4);
    }
    let size = 1 << n;
    if length != header + size / 8 {
        return Err(5);
    }
    let (r, polynomial, start) = read_check(bytes)?;
    let information = count_information(mask_of(bytes));
    if information < r + 1 {
        return Err(8);
    }
    Ok(Code {
        n,
        r,
        polynomial,
        start,
        k: information - r,
    })
}

/// Fewer than 8 bytes, or fewer than 10 where bytes 2 and 3 say kind 4.
fn is_too_short(bytes: &[u8]) -> bool {
    bytes.len() < HEADER || has_start(bytes) && bytes.len() < HEADER_WITH_START
}

/// The check's width, polynomial and start, or their refusal.
fn read_check(bytes: &[u8]) -> Result<(usize, u16, u16), u8> {
    let r = usize::from(bytes[5]);
    if !(1..=16).contains(&r) {
        return Err(6);
    }
    let polynomial = word(bytes, 6);
    if !has_term(polynomial, 0) || has_term_from(polynomial, r) {
        return Err(7);
    }
    let start = start_of(bytes);
    if has_term_from(start, r) {
        return Err(25);
    }
    Ok((r, polynomial, start))
}

/// Bytes 2 and 3.
fn kind_of(description: &[u8]) -> u16 {
    word(description, 2)
}

/// Whether bytes 2 and 3 say kind 4.
pub fn has_start(description: &[u8]) -> bool {
    kind_of(description) == WITH_START
}

/// Bytes 8 and 9 of kind 4; kind 1 means 0.
fn start_of(description: &[u8]) -> u16 {
    match has_start(description) {
        true => word(description, 8),
        false => 0,
    }
}

/// The mask: the bytes from 8 on, or from 10 on where the kind is 4.
pub fn mask_of(description: &[u8]) -> &[u8] {
    let header = header_length(kind_of(description));
    &description[header.expect("a description's kind")..]
}

/// Two bytes from `place` on, little-endian.
pub fn word(bytes: &[u8], place: usize) -> u16 {
    u16::from(bytes[place]) + 256 * u16::from(bytes[place + 1])
}

/// Whether the coefficient of z^i is one.
pub fn has_term(polynomial: u16, i: usize) -> bool {
    polynomial >> i & 1 == 1
}

/// Whether a coefficient at z^r or above is one.
fn has_term_from(polynomial: u16, r: usize) -> bool {
    (r..16).any(|i| has_term(polynomial, i))
}

#[cfg(test)]
mod tests {
    use super::*;
    use crate::reference::sizes::{LARGEST_N, LONGEST};
    use crate::testing::hex::parse;
    use crate::testing::paper::{D, D_WITH_START};

    fn refused(bytes: &[u8], number: u8) {
        assert_eq!(describe(bytes), Err(number), "{bytes:02x?}");
    }

    fn accepted(bytes: &[u8], code: Code) {
        assert_eq!(describe(bytes), Ok(code), "{bytes:02x?}");
    }

    /// A code whose check starts at 0.
    fn code(n: usize, r: usize, polynomial: u16, k: usize) -> Code {
        Code {
            n,
            r,
            polynomial,
            start: 0,
            k,
        }
    }

    /// A description with the bytes from `place` on replaced.
    fn with(d: &[u8], place: usize, bytes: &[u8]) -> Vec<u8> {
        let mut d = d.to_vec();
        d[place..place + bytes.len()].copy_from_slice(bytes);
        d
    }

    /// A mask whose last `ones` indices are information indices.
    fn last(n: usize, ones: usize) -> Vec<bool> {
        (0..1 << n).map(|index| index + ones >= 1 << n).collect()
    }

    #[test]
    fn rows_of_the_paper() {
        accepted(&D, code(3, 1, 1, 3));
        assert_eq!(count_information(&D[8..]), 4);
        accepted(&with(&D, 8, &[0xC0]), code(3, 1, 1, 1));
        refused(&with(&D, 8, &[0x80]), 8);
    }

    #[test]
    fn a_start_is_little_endian_and_its_mask_follows() {
        let start = |start| Code {
            start,
            ..code(3, 1, 1, 3)
        };
        accepted(&D_WITH_START, start(1));
        accepted(&with(&D_WITH_START, 8, &[0]), start(0));
        refused(&with(&D_WITH_START, 10, &[0x80]), 8);
        let wide = record_with_start(4, 10, 1, 0x0234, &[true; 16]);
        let expected = Code {
            start: 0x0234,
            ..code(4, 10, 1, 6)
        };
        assert_eq!(wide, parse("0C 00 04 00 04 0A 01 00 34 02 FF FF"));
        accepted(&wide, expected);
    }

    #[test]
    fn sizes_of_a_code() {
        for d in [&D[..], &D_WITH_START] {
            let code = describe(d).expect("a code");
            assert_eq!((code.size(), code.information()), (8, 4));
            assert_eq!(mask_of(d), [0xE8]);
        }
    }

    /// Also with a length field whose second byte is another, and those of a larger n.
    #[test]
    fn the_longest_descriptions() {
        let longest = record(LARGEST_N, 16, 0x8005, &[true; LONGEST]);
        for d in [longest.clone(), with_start(&longest, 0)] {
            accepted(&d, code(LARGEST_N, 16, 0x8005, LONGEST - 16));
            refused(&with(&d, 1, &[0]), 2);
        }
        let beyond = record(LARGEST_N + 1, 16, 0x8005, &[true; 2 * LONGEST]);
        refused(&beyond, 4);
        refused(&with_start(&beyond, 0), 4);
    }

    #[test]
    fn refusal_1_short() {
        for length in 0..8 {
            refused(&D[..length], 1);
        }
        refused(&D[..8], 2);
    }

    /// A slice that says kind 4 has 10 bytes at least, whatever its length field says.
    #[test]
    fn refusal_1_short_of_kind_4() {
        for length in 0..10 {
            refused(&D_WITH_START[..length], 1);
            if length >= 2 {
                refused(&with(&D_WITH_START[..length], 0, &[length as u8, 0]), 1);
            }
        }
        refused(&D_WITH_START[..10], 2);
        refused(&with(&D_WITH_START[..10], 0, &[10, 0]), 5);
        refused(&with(&D_WITH_START[..9], 2, &[5]), 2);
        refused(&parse("09 00 05 00 03 01 01 00 01"), 3);
    }

    #[test]
    fn refusal_2_length_field() {
        for field in [[8, 0], [10, 0], [9, 1], [0, 9], [0, 0], [255, 255]] {
            refused(&with(&D, 0, &field), 2);
            refused(&with(&D_WITH_START, 0, &field), 2);
        }
        let mut long = D.to_vec();
        long.resize(65536 + 9, 0);
        refused(&long, 2);
    }

    #[test]
    fn refusal_3_kind() {
        let kinds = [0, 2, 3, 5, 0x0101, 0x0104, 0x0401, 0x0100, 0x0400, 0xFFFF];
        for kind in kinds.map(u16::to_le_bytes) {
            refused(&with(&D, 2, &kind), 3);
            refused(&with(&D_WITH_START, 2, &kind), 3);
        }
    }

    #[test]
    fn refusal_4_n() {
        for n in [0, 1, 2, LARGEST_N + 1, LARGEST_N + 2, 64, 255] {
            refused(&with(&D, 4, &[n as u8]), 4);
            refused(&with(&D_WITH_START, 4, &[n as u8]), 4);
        }
        for n in LAYERS {
            let d = record(n, 1, 1, &last(n, 5));
            accepted(&d, code(n, 1, 1, 4));
            accepted(&with_start(&d, 0), code(n, 1, 1, 4));
        }
    }

    #[test]
    fn refusal_5_length_and_n() {
        refused(&parse("08 00 01 00 03 01 01 00"), 5);
        refused(&parse("0A 00 01 00 03 01 01 00 E8 00"), 5);
        refused(&parse("0A 00 04 00 03 01 01 00 01 00"), 5);
        refused(&parse("0C 00 04 00 03 01 01 00 01 00 E8 00"), 5);
        for n in LAYERS.skip(1) {
            refused(&with(&D, 4, &[n as u8]), 5);
            refused(&with(&D_WITH_START, 4, &[n as u8]), 5);
        }
    }

    /// A length that only the other kind has; of the shortest one 9 bytes are too few for kind 4.
    #[test]
    fn refusal_5_length_of_the_other_kind() {
        refused(&with(&D, 2, &[4]), 1);
        for n in LAYERS {
            let d = record(n, 1, 1, &last(n, 5));
            refused(&with(&with_start(&d, 1), 2, &[1]), 5);
            if n > 3 {
                refused(&with(&d, 2, &[4]), 5);
            }
        }
    }

    #[test]
    fn refusal_6_r() {
        for r in [0, 17, 18, 255] {
            refused(&with(&D, 5, &[r]), 6);
            refused(&with(&D_WITH_START, 5, &[r]), 6);
        }
        for r in 1..=16 {
            let d = record(5, r, 1, &last(5, 20));
            accepted(&d, code(5, r, 1, 20 - r));
        }
    }

    #[test]
    fn refusal_7_polynomial() {
        for r in 1..=16 {
            let of = |polynomial| record(5, r, polynomial, &last(5, 32));
            let all = (0xFFFFu32 % (1 << r)) as u16;
            refused(&of(0), 7);
            refused(&of(all - 1), 7);
            accepted(&of(1), code(5, r, 1, 32 - r));
            accepted(&of(all), code(5, r, all, 32 - r));
            for i in 1..16 {
                let two_terms = 1 | 1 << i;
                if i < r {
                    accepted(&of(two_terms), code(5, r, two_terms, 32 - r));
                } else {
                    refused(&of(two_terms), 7);
                }
            }
        }
    }

    #[test]
    fn refusal_25_start() {
        for r in 1..=16 {
            let of = |start| record_with_start(5, r, 1, start, &last(5, 32));
            let all = (0xFFFFu32 % (1 << r)) as u16;
            let starts = (0..16).map(|i| 1 << i);
            for start in starts.chain([0, 1, all, 0xFFFF]) {
                if start <= all {
                    let code = code(5, r, 1, 32 - r);
                    accepted(&of(start), Code { start, ..code });
                } else {
                    refused(&of(start), 25);
                }
            }
        }
    }

    #[test]
    fn refusal_8_ones() {
        for r in 1..=16 {
            for ones in 0..=r {
                refused(&record(6, r, 1, &last(6, ones)), 8);
                refused(&record_with_start(6, r, 1, 1, &last(6, ones)), 8);
            }
            accepted(&record(6, r, 1, &last(6, r + 1)), code(6, r, 1, 1));
            accepted(&record(6, r, 1, &last(6, 64)), code(6, r, 1, 64 - r));
        }
    }

    /// Every rule is broken at first; then they are mended one by one.
    #[test]
    fn the_first_fault_decides() {
        refused(&parse("FF FF FF FF FF FF FE"), 1);
        refused(&parse("FF FF FF FF FF FF FE FF 00"), 2);
        refused(&parse("09 00 FF FF FF FF FE FF 00"), 3);
        refused(&parse("09 00 01 00 FF FF FE FF 00"), 4);
        refused(&parse("09 00 01 00 04 FF FE FF 00"), 5);
        refused(&parse("09 00 01 00 03 FF FE FF 00"), 6);
        refused(&parse("09 00 01 00 03 01 FE FF 00"), 7);
        refused(&parse("09 00 01 00 03 01 01 00 00"), 8);
        accepted(&parse("09 00 01 00 03 01 01 00 03"), code(3, 1, 1, 1));
    }

    /// The same of kind 4; r is 0 in place of FF, so that any start bit stands above it.
    #[test]
    fn the_first_fault_of_kind_4_decides() {
        refused(&parse("FF FF 04 00 FF 00 FE FF FF"), 1);
        refused(&parse("FF FF FF FF FF 00 FE FF FF FF 00"), 2);
        refused(&parse("0B 00 FF FF FF 00 FE FF FF FF 00"), 3);
        refused(&parse("0B 00 04 00 FF 00 FE FF FF FF 00"), 4);
        refused(&parse("0B 00 04 00 04 00 FE FF FF FF 00"), 5);
        refused(&parse("0B 00 04 00 03 00 FE FF FF FF 00"), 6);
        refused(&parse("0B 00 04 00 03 01 FE FF FF FF 00"), 7);
        refused(&parse("0B 00 04 00 03 01 01 00 FF FF 00"), 25);
        refused(&parse("0B 00 04 00 03 01 01 00 00 00 00"), 8);
        accepted(&parse("0B 00 04 00 03 01 01 00 00 00 03"), code(3, 1, 1, 1));
    }
}
