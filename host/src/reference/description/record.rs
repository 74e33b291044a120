//! The records of codes: document 01, "Code description", and document 02, request 2.1.

use crate::reference::description::{mask_of, word, WITHOUT_START, WITH_START};

/// The record of a code, of kind 1; `mask` says of each of the N indices whether it is an
/// information index.
pub fn record(n: usize, r: usize, polynomial: u16, mask: &[bool]) -> Vec<u8> {
    assert_eq!(mask.len(), 1 << n, "one mask bit for each index");
    let mask: Vec<u8> = mask.chunks(8).map(mask_byte).collect();
    laid_out(WITHOUT_START, [n as u8, r as u8], &[polynomial], &mask)
}

/// The same of kind 4.
pub fn record_with_start(
    n: usize,
    r: usize,
    polynomial: u16,
    start: u16,
    mask: &[bool],
) -> Vec<u8> {
    with_start(&record(n, r, polynomial, mask), start)
}

/// The record of kind 4 that has this start, and all else from a description of either kind.
pub fn with_start(description: &[u8], start: u16) -> Vec<u8> {
    let sizes = [description[4], description[5]];
    let words = [word(description, 6), start];
    laid_out(WITH_START, sizes, &words, mask_of(description))
}

/// A record of a kind: its length, the kind, n and r, the words that follow them, the mask.
fn laid_out(kind: u16, sizes: [u8; 2], words: &[u16], mask: &[u8]) -> Vec<u8> {
    let words: Vec<u8> = words.iter().flat_map(|word| word.to_le_bytes()).collect();
    let body = [&kind.to_le_bytes()[..], &sizes, &words, mask].concat();
    let length = 2 + body.len() as u16;
    [&length.to_le_bytes()[..], &body].concat()
}

fn mask_byte(ones: &[bool]) -> u8 {
    ones.iter()
        .enumerate()
        .map(|(b, &one)| u8::from(one) << b)
        .sum()
}

#[cfg(test)]
mod tests {
    use super::*;
    use crate::reference::description::LONGEST_DESCRIPTION;
    use crate::reference::sizes::{LARGEST_N, LONGEST, LONGEST_BYTES};
    use crate::testing::hex::parse;
    use crate::testing::paper::{D, D_WITH_START};

    #[test]
    fn a_record_is_laid_out_as_in_the_paper() {
        let mask: Vec<bool> = (0..8).map(|i| [3, 5, 6, 7].contains(&i)).collect();
        assert_eq!(record(3, 1, 1, &mask), D);
        assert_eq!(record_with_start(3, 1, 1, 1, &mask), D_WITH_START);
        let last: Vec<bool> = (0..1 << 10).map(|index| index >= 8 * 64).collect();
        let long = record(10, 11, 0x0621, &last);
        assert_eq!(long[..8], parse("88 00 01 00 0A 0B 21 06"));
        assert_eq!(long[8..], [[0x00; 64], [0xFF; 64]].concat());
        let long = with_start(&long, 0x0456);
        assert_eq!(long[..10], parse("8A 00 04 00 0A 0B 21 06 56 04"));
        assert_eq!(long[10..], [[0x00; 64], [0xFF; 64]].concat());
        assert_eq!(with_start(&long, 0x0456), long);
    }

    /// Their length has a second byte that is not zero.
    #[test]
    fn the_longest_records() {
        let longest = record(LARGEST_N, 16, 0x8005, &[true; LONGEST]);
        assert_eq!(longest[..8], parse("08 02 01 00 0C 10 05 80"));
        assert_eq!(longest[8..], [0xFF; LONGEST_BYTES]);
        let longest = with_start(&longest, 0);
        assert_eq!(longest[..10], parse("0A 02 04 00 0C 10 05 80 00 00"));
        assert_eq!(longest.len(), LONGEST_DESCRIPTION);
    }
}
