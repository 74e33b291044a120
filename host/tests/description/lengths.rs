//! Lengths: of the largest n, near the right one, of too few bytes and of too many.

use host::reference::description::{record, with_start, LONGEST_DESCRIPTION};
use host::reference::sizes::{LARGEST_N, LONGEST_RECORD};
use host::testing::paper::{D, D_WITH_START};
use host::testing::random::Random;

use crate::calls::{check, check_with, for_accepted, length_field};

/// A description of each kind whose indices are all information indices.
fn both_kinds(n: usize) -> [Vec<u8>; 2] {
    let plain = record(n, 11, 0x0621, &vec![true; 1 << n]);
    [with_start(&plain, 0x7FF), plain]
}

/// The longest descriptions are accepted, and those of larger n refused with the length of their n as
/// with any other.
#[test]
fn the_largest_n() {
    let lengths = both_kinds(LARGEST_N).map(|d| d.len());
    assert_eq!(lengths, [LONGEST_DESCRIPTION, LONGEST_DESCRIPTION - 2]);
    for n in LARGEST_N - 2..=LARGEST_N + 3 {
        for d in both_kinds(n) {
            assert_eq!(check(&d), if n <= LARGEST_N { 0 } else { 4 });
            for other in LARGEST_N + 1..256 {
                assert_eq!(check_with(&d, 4, &[other as u8]), 4);
            }
        }
    }
    for d in [&D[..], &D_WITH_START] {
        assert_eq!(check_with(d, 4, &[LARGEST_N as u8 + 1]), 4);
    }
}

/// Some bytes more or less than a long description has: with their number in the length field, and
/// with the right one, whose low byte may be the same.
#[test]
fn lengths_near_those_of_long_descriptions() {
    for n in 11..=LARGEST_N {
        for d in both_kinds(n) {
            let right = d.len();
            for length in (right - 12..right + 12).chain([right - 256, right + 256]) {
                let mut other = d.clone();
                other.resize(length, 0xFF);
                let refusals = if length == right { [0, 0] } else { [2, 5] };
                assert_eq!(check(&other), refusals[0]);
                assert_eq!(check_with(&other, 0, &length_field(length)), refusals[1]);
            }
        }
    }
}

/// Slices that say kind 4 have 10 bytes at least, whatever their length field says.
#[test]
fn the_least_bytes_of_kind_4() {
    for_accepted(10, 50, |random, d| {
        let d = with_start(d, 1);
        for length in 4..10 {
            check_fields(random, &d, length, [1, 1]);
        }
        check_fields(random, &d, 10, [5, 2]);
    });
}

/// Checks the first bytes of a description: with the right length field for the first refusal, with
/// others for the second.
fn check_fields(random: &mut Random, d: &[u8], length: usize, [right, wrong]: [usize; 2]) {
    for field in [length, d.len(), 8, 9, 10, random.below(65_536)] {
        let refusal = if field == length { right } else { wrong };
        assert_eq!(check_with(&d[..length], 0, &length_field(field)), refusal);
    }
}

#[test]
fn cut_and_extended() {
    for_accepted(3, 100, |random, d| {
        let longer = [d, &random.bytes(16)].concat();
        for length in 0..=longer.len() {
            let cut = &longer[..length];
            check(cut);
            if length >= 2 {
                check_with(cut, 0, &length_field(length));
            }
        }
    });
}

/// The length field has two bytes, the bytes lent may be more.
#[test]
fn longer_than_the_length_field_can_say() {
    for_accepted(4, 2, |_, d| {
        for length in [LONGEST_RECORD, 65_536, 65_536 + d.len()] {
            let mut long = d.to_vec();
            long.resize(length, 0);
            check(&long);
            check_with(&long, 0, &length_field(length));
        }
    });
}
