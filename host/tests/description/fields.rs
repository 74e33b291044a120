//! Fields: right ones, damaged ones and random ones.

use host::reference::description::{
    has_start, header_length, record, with_start, word, LONGEST_DESCRIPTION, REFUSALS,
};
use host::reference::sizes::{LAYERS, LONGEST_RECORD};
use host::testing::met::Met;
use host::testing::random::Random;
use host::testing::samples;

use crate::calls::{check, check_with, for_accepted, length_field};

/// Every set of faults in a description of each kind: the first in the refusals' order decides.
#[test]
fn every_set_of_faults() {
    let mut random = Random::new(8);
    for n in LAYERS {
        for set in 0..1 << REFUSALS.len() {
            let chosen = (0..REFUSALS.len()).filter(|place| set >> place & 1 == 1);
            let faults: Vec<usize> = chosen.map(|place| REFUSALS[place]).collect();
            let plain = samples::description_of_kind_1(&mut random, n);
            let start = samples::start(&mut random, plain[5].into());
            check_faults(&mut random, with_start(&plain, start), &faults);
            check_faults(&mut random, plain, &faults);
        }
    }
}

/// Puts these faults into an accepted description, where it can have them all.
fn check_faults(random: &mut Random, mut d: Vec<u8>, faults: &[usize]) {
    if faults.iter().all(|&fault| samples::can_break(&d, fault)) {
        samples::put_faults(random, &mut d, faults);
        let first = faults.first().copied().unwrap_or(0);
        assert_eq!(check(&d), first, "{faults:?} {d:02x?}");
    }
}

/// Each bit of the start beside any lower ones, under each width.
#[test]
fn start_bits_below_r_and_above() {
    let mut random = Random::new(9);
    for n in LAYERS {
        let size = 1 << n;
        for r in 1..=16.min(size - 1) {
            let polynomial = samples::polynomial(&mut random, r);
            let d = record(n, r, polynomial, &vec![true; size]);
            check_start_bits(&mut random, &d, r);
        }
    }
}

fn check_start_bits(random: &mut Random, d: &[u8], r: usize) {
    assert_eq!(check(&with_start(d, 0)), 0);
    for i in 0..16 {
        let start = 1 << i | random.below(1 << i) as u16;
        let refusal = if i < r { 0 } else { 25 };
        assert_eq!(check(&with_start(d, start)), refusal);
    }
}

#[test]
fn accepted_descriptions() {
    for_accepted(1, 2_000, |_, d| assert_eq!(check(d), 0));
}

#[test]
fn each_byte_damaged() {
    for_accepted(2, 100, |random, d| {
        for place in 0..d.len() {
            check_with(d, place, &[d[place] ^ 1 << random.below(8)]);
            check_with(d, place, &[random.byte()]);
        }
    });
}

#[test]
fn each_field_at_its_edges() {
    const KINDS: [u16; 12] = [0, 1, 2, 3, 4, 5, 255, 256, 257, 0x0104, 0x0401, 65_535];
    let mut met = Met::default();
    for_accepted(5, 20, |random, d| {
        let size = d.len();
        let mut with = |place, bytes: &[u8]| met.count(check_with(d, place, bytes));
        for value in 0..=255 {
            with(4, &[value]);
            with(5, &[value]);
        }
        let others = [0, size - 1, size + 1, size + 256, LONGEST_RECORD];
        for length in (7..11).chain(others) {
            with(0, &length_field(length));
        }
        for kind in KINDS {
            with(2, &kind.to_le_bytes());
        }
        let words: &[usize] = if has_start(d) { &[6, 8] } else { &[6] };
        for &place in words {
            for i in 0..16 {
                with(place, &(word(d, place) ^ 1 << i).to_le_bytes());
            }
        }
        with(8, &vec![0; size - 8]);
        met.count(check(&d[..random.below(10)]));
    });
    met.are_all(&[&[0], &REFUSALS]);
}

#[test]
fn ones_around_the_check_width() {
    let mut random = Random::new(6);
    for n in LAYERS {
        for r in 1..=16 {
            check_ones_around(&mut random, n, r);
        }
    }
}

/// Twenty masks of each number of ones.
fn check_ones_around(random: &mut Random, n: usize, r: usize) {
    let size = 1 << n;
    for ones in r - 1..=(r + 2).min(size) {
        let refusal = if ones > r { 0 } else { 8 };
        for _ in 0..20 {
            let polynomial = samples::polynomial(random, r);
            let d = record(n, r, polynomial, &samples::mask(random, size, ones));
            assert_eq!(check(&samples::either_kind(random, d)), refusal);
        }
    }
}

/// Random bytes, of which more and more of the header is made right.
#[test]
fn random_bytes() {
    let mut random = Random::new(7);
    for _ in 0..20_000 {
        let length = random.below(LONGEST_DESCRIPTION + 4);
        check(&random.bytes(length));

        let n = samples::layers(&mut random);
        for kind in [1, 4] {
            check_headers(&mut random, kind, n);
        }
    }
}

/// As many bytes as a description of this kind and n has.
fn check_headers(random: &mut Random, kind: u8, n: usize) {
    let header = header_length(kind.into()).expect("a description's kind");
    let d = random.bytes(header + (1 << n) / 8);
    let [low, high] = length_field(d.len());
    let header = [low, high, kind, 0, n as u8, random.byte() % 20];
    for right in [2, 4, 5, 6] {
        check_with(&d, 0, &header[..right]);
    }
}
