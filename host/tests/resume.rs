//! The library's resume, held to the reference on more than 200,000 calls, more than 100,000 of them
//! under descriptions of kind 4.

use host::reference::channel::value_byte;
use host::reference::description::{is_information, mask_of, record, REFUSALS};
use host::reference::number::resume_number;
use host::reference::pass::skipped_steps;
use host::reference::refusal::refusal_number;
use host::reference::resume::resume;
use host::reference::sizes::{LARGEST_N, LAYERS, LONGEST};
use host::reference::transform::transform;
use host::testing::guard::lend_reference;
use host::testing::lent::resume as run;
use host::testing::met::Met;
use host::testing::paper::{D, D_WITH_START, V};
use host::testing::random::Random;
use host::testing::samples::{self, for_descriptions, for_refused_descriptions, prefix};

/// Compares one call in its answer and in each byte of its output; gives the refusal's number, or
/// 0.
fn check(d: &[u8], channel: &[u8], prefix: &[u8], before: &[u8]) -> usize {
    let (expected, output) = lend_reference(before, |output| resume(d, channel, prefix, output));
    assert_eq!(
        run(d, channel, prefix, before),
        (resume_number(&expected), output),
        "{d:02x?} {channel:02x?} {prefix:02x?} {} bytes",
        before.len()
    );
    refusal_number(&expected)
}

/// Channel values of one of several kinds: any, small with many zeros and ties, of one magnitude,
/// at the ends of the range.
fn values(random: &mut Random, count: usize) -> Vec<u8> {
    let of = |random: &mut Random, choice: &[i64]| {
        let value = choice[random.below(choice.len())];
        value_byte(value)
    };
    match random.below(6) {
        0 | 1 => samples::channel(random, count, 31),
        2 => samples::channel(random, count, 2),
        3 => (0..count).map(|_| of(random, &[-5, 5])).collect(),
        4 => (0..count).map(|_| of(random, &[-31, 31])).collect(),
        _ => (0..count)
            .map(|_| of(random, &[-31, -1, 0, 0, 1, 31]))
            .collect(),
    }
}

#[test]
fn rows_of_the_paper() {
    let zeros = vec![0; 8];
    assert_eq!(run(&D, &V, &[0; 6], &[0xEE; 8]), (8 << 32, zeros));
    let at_7 = |byte| run(&D, &[0, 0, 0, 0, 0, 0, 0, byte], &[], &[0xEE; 8]);
    assert_eq!(at_7(31), (24 << 32, vec![0; 8]));
    assert_eq!(at_7(32), (7 << 8 | 13, vec![0xEE; 8]));
    assert_eq!(at_7(224), (7 << 8 | 13, vec![0xEE; 8]));
    for (q, skipped) in [(0, 0), (1, 1), (6, 16), (7, 17), (8, 24)] {
        let (answer, _) = run(&D, &V, &vec![0; q], &[0xEE; 8]);
        assert_eq!(answer, (24 - skipped) << 32);
    }
}

/// The worked example of document 001: restarting at 11 gives the bits of the whole pass, in 27
/// steps.
#[test]
fn the_example_of_document_001() {
    let information = [6, 7, 9, 11, 12, 13, 14, 15];
    let mask: Vec<bool> = (0..16).map(|index| information.contains(&index)).collect();
    let d = record(4, 1, 1, &mask);
    let mut random = Random::new(1);
    for _ in 0..1_000 {
        let channel = values(&mut random, 16);
        let (answer, bits) = run(&d, &channel, &[], &[0xEE; 16]);
        assert_eq!(answer, 64 << 32);
        let resumed = run(&d, &channel, &bits[..11], &[0xEE; 16]);
        assert_eq!(resumed, (27 << 32, bits));
    }
}

#[test]
fn every_prefix_length_of_small_codes() {
    for_descriptions(2, 3..=7, 60, |random, d, code| {
        for q in 0..=code.size() {
            let channel = values(random, code.size());
            let prefix = prefix(random, d, q);
            assert_eq!(check(d, &channel, &prefix, &random.bytes(code.size())), 0);
        }
    });
}

/// Every prefix of bits under D, of either kind, with vectors of −1, 0 and 1; a one at a frozen index
/// is refused.
#[test]
fn every_prefix_of_the_paper_s_code() {
    let channels: Vec<Vec<u8>> = samples::small_vectors().step_by(53).collect();
    for q in 0..=8 {
        for ones in 0..1u32 << q {
            let prefix: Vec<u8> = (0..q).map(|index| (ones >> index & 1) as u8).collect();
            let refusal = if ones & !0xE8 == 0 { 0 } else { 18 };
            check_prefix(&channels, &prefix, refusal);
        }
    }
}

/// Checks a prefix under D, of either kind.
fn check_prefix(channels: &[Vec<u8>], prefix: &[u8], refusal: usize) {
    for channel in channels {
        assert_eq!(check(&D, channel, prefix, &[0xEE; 8]), refusal);
        assert_eq!(check(&D_WITH_START, channel, prefix, &[0xEE; 8]), refusal);
    }
}

#[test]
fn any_prefix_length_of_large_codes() {
    for_descriptions(3, 8..=LARGEST_N, 150, |random, d, code| {
        let size = code.size();
        let half = size / 2;
        let edges = [0, 1, half - 1, half, half + 1, size - 1, size];
        for q in edges.into_iter().chain([random.below(size)]) {
            let channel = values(random, size);
            let prefix = prefix(random, d, q);
            assert_eq!(check(d, &channel, &prefix, &random.bytes(size)), 0);
        }
    });
}

/// Forcing what a plain pass decided changes no bit and skips the steps of the closed sum.
#[test]
fn resuming_a_plain_pass() {
    for_descriptions(4, LAYERS, 40, |random, d, code| {
        let size = code.size();
        let channel = values(random, size);
        let (whole, bits) = run(d, &channel, &[], &random.bytes(size));
        assert_eq!(whole, ((code.n * size) as u64) << 32);
        for _ in 0..4 {
            let q = random.between(0, size);
            let steps = code.n * size - skipped_steps(code.n, q);
            let resumed = run(d, &channel, &bits[..q], &random.bytes(size));
            assert_eq!(resumed, ((steps as u64) << 32, bits.clone()));
        }
    });
}

/// Strong values, and a prefix with wrong bits near its end: values near the bound are set against
/// each other.
#[test]
fn strong_values_against_the_prefix() {
    let mut random = Random::new(13);
    for n in LAYERS {
        let size = 1 << n;
        for _ in 0..100 {
            let d = samples::either_kind(&mut random, record(n, 1, 1, &vec![true; size]));
            let u = random.bits(size);
            let channel = samples::noisy(&mut random, &transform(&u), 24, 2);
            let q = size - random.below(8);
            let prefix = with_wrong_bits(&mut random, &u[..q]);
            assert_eq!(check(&d, &channel, &prefix, &random.bytes(size)), 0);
        }
    }
}

/// Changes up to three of the last eight bits.
fn with_wrong_bits(random: &mut Random, bits: &[u8]) -> Vec<u8> {
    let mut bits = bits.to_vec();
    let last = bits.len() - 1;
    for _ in 0..random.between(1, 3) {
        bits[last - random.below(8.min(last + 1))] ^= 1;
    }
    bits
}

#[test]
fn values_at_the_ends() {
    for_descriptions(5, LAYERS, 20, |random, d, code| {
        let size = code.size();
        for byte in [31, 225, 0] {
            let prefix = prefix(random, d, size / 2);
            assert_eq!(check(d, &vec![byte; size], &[], &random.bytes(size)), 0);
            assert_eq!(check(d, &vec![byte; size], &prefix, &random.bytes(size)), 0);
        }
    });
}

#[test]
fn every_byte_as_a_value() {
    for_descriptions(6, 3..=7, 8, |random, d, code| {
        for byte in 0..=255 {
            let mut channel = values(random, code.size());
            channel[random.below(code.size())] = byte;
            let refusal = if (32..=224).contains(&byte) { 13 } else { 0 };
            assert_eq!(check(d, &channel, &[], &random.bytes(code.size())), refusal);
        }
    });
}

/// At both ends and at random places, also several at once: the first one is reported.
#[test]
fn values_out_of_range() {
    for_descriptions(7, LAYERS, 100, |random, d, code| {
        let size = code.size();
        for place in [0, size - 1, random.below(size), random.below(size)] {
            let mut channel = values(random, size);
            channel[place] = samples::value_out_of_range(random);
            let before = random.bytes(size);
            let refused = (((place as u64) << 8) + 13, before.clone());
            assert_eq!(run(d, &channel, &[], &before), refused);
            for _ in 0..random.below(4) {
                channel[random.below(size)] = 32 + random.below(193) as u8;
            }
            assert_eq!(check(d, &channel, &[], &before), 13);
        }
    });
}

#[test]
fn bad_prefix_bytes() {
    for_descriptions(8, LAYERS, 200, |random, d, code| {
        let size = code.size();
        let channel = values(random, size);
        let before = random.bytes(size);
        let q = random.between(1, size);
        for byte in [2, 3, 128, 254, 255, random.byte() | 2] {
            let mut bad = prefix(random, d, q);
            let place = random.below(q);
            bad[place] = byte;
            let refused = (((place as u64) << 8) + 18, before.clone());
            assert_eq!(run(d, &channel, &bad, &before), refused);
            bad[random.below(q)] = random.byte() | 2;
            assert_eq!(check(d, &channel, &bad, &before), 18);
        }
    });
}

#[test]
fn ones_at_frozen_indices() {
    for_descriptions(9, LAYERS, 100, |random, d, code| {
        let channel = values(random, code.size());
        let before = random.bytes(code.size());
        let frozen: Vec<usize> = (0..code.size())
            .filter(|&index| !is_information(mask_of(d), index))
            .collect();
        for &index in frozen.iter().step_by(1 + frozen.len() / 8) {
            let q = random.between(index + 1, code.size());
            let mut bad = prefix(random, d, q);
            bad[index] = 1;
            let refused = (((index as u64) << 8) + 18, before.clone());
            assert_eq!(run(d, &channel, &bad, &before), refused);
            bad[frozen[0]] = 1;
            assert_eq!(check(d, &channel, &bad, &before), 18);
        }
    });
}

#[test]
fn wrong_lengths() {
    for_descriptions(10, LAYERS, 40, |random, d, code| {
        let size = code.size();
        let channel = values(random, size);
        let before = random.bytes(size);
        for length in [
            0,
            1,
            size / 2,
            size - 1,
            size + 1,
            size + 8,
            2 * size,
            65_536,
        ] {
            let wrong = vec![0; length];
            assert_eq!(check(d, &wrong, &[], &before), 12);
            assert_eq!(check(d, &channel, &[], &random.bytes(length)), 19);
            let refusal = if length > size { 17 } else { 0 };
            assert_eq!(check(d, &channel, &wrong, &before), refusal);
        }
    });
}

#[test]
fn refused_descriptions() {
    for_refused_descriptions(11, 500, |random, d, refusal| {
        let [channel, prefix, before] = [0; 3].map(|_| {
            let length = random.below(LONGEST + 80);
            random.bytes(length)
        });
        assert_eq!(check(d, &channel, &prefix, &before), refusal);
    });
}

/// Faults of every kind at once, so that their order decides.
#[test]
fn several_faults() {
    let mut random = Random::new(12);
    let mut met = Met::default();
    for _ in 0..20_000 {
        let n = random.between(3, 7);
        let mut d = samples::description(&mut random, n);
        let size = 1 << n;
        let mut channel = values(&mut random, size);
        let q = random.between(0, size);
        let mut prefix = prefix(&mut random, &d, q);
        let mut before = random.bytes(size);
        samples::spoil_description(&mut random, &mut d);
        samples::spoil_channel(&mut random, &mut channel);
        if random.below(3) == 0 {
            prefix.resize(random.below(2 * size), 0);
        }
        if random.below(3) == 0 && !prefix.is_empty() {
            let place = random.below(prefix.len());
            prefix[place] = random.byte() % 4;
        }
        if random.below(3) == 0 {
            before.resize(random.below(2 * size), 0xEE);
        }
        met.count(check(&d, &channel, &prefix, &before));
    }
    met.are_all(&[&[0], &REFUSALS, &[12, 13, 17, 18, 19]]);
}
