//! The library's encoder, held to the reference on more than 350,000 calls, more than 250,000 of them
//! under descriptions of kind 4.

use host::reference::description::{
    describe, mask_of, record, record_with_start, with_start, REFUSALS,
};
use host::reference::encode::encode;
use host::reference::number::encode_number;
use host::reference::packing::{pack, packed_length, unpack};
use host::reference::placing::take;
use host::reference::refusal::refusal_number;
use host::reference::sizes::{LAYERS, LONGEST_BYTES};
use host::reference::transform::transform;
use host::testing::guard::lend_reference;
use host::testing::lent;
use host::testing::met::Met;
use host::testing::paper::{D, D_WITH_START};
use host::testing::random::Random;
use host::testing::samples::{self, for_descriptions, for_refused_descriptions};

/// Compares one call in its answer and in each byte of its output; gives the refusal's number, or
/// 0.
fn check(d: &[u8], payload: &[u8], before: &[u8]) -> usize {
    let (expected, output) = lend_reference(before, |output| encode(d, payload, output));
    assert_eq!(
        lent::encode(d, payload, before),
        (encode_number(&expected), output),
        "{d:02x?} {payload:02x?} {} bytes",
        before.len()
    );
    refusal_number(&expected)
}

#[test]
fn rows_of_the_paper() {
    let of = |d, payload| lent::encode(d, &[payload], &[0xEE]);
    assert_eq!(of(&D, 0xA0), (0, vec![0x5A]));
    assert_eq!(of(&D, 0x80), (0, vec![0x0F]));
    assert_eq!(of(&D, 0xB0), (10, vec![0xEE]));
    assert_eq!(of(&D_WITH_START, 0xA0), (0, vec![0xA5]));
}

/// CRC-16/IBM-3740, which starts at FFFF, of its published string: the check bits of the codeword.
#[test]
fn a_published_check_with_a_start() {
    let mask = samples::useful_mask(1 << 7, 72 + 16);
    let d = record_with_start(7, 16, 0x1021, 0xFFFF, &mask);
    let payload = b"123456789";
    let (answer, codeword) = lent::encode(&d, payload, &[0xEE; (1 << 7) / 8]);
    assert_eq!(answer, 0);
    let message = take(mask_of(&d), &transform(&unpack(&codeword, 1 << 7)));
    assert_eq!(pack(&message), [&payload[..], &[0x29, 0xB1]].concat());
}

/// Of kind 1, and with every start.
#[test]
fn every_payload_of_every_code_of_length_8() {
    for bits in 0..256usize {
        let mask: Vec<bool> = (0..8).map(|index| bits >> index & 1 == 1).collect();
        let ones = bits.count_ones() as usize;
        for r in 1..ones {
            every_check(&mask, r, ones - r);
        }
    }
}

/// Every polynomial of width r, without a start and with each.
fn every_check(mask: &[bool], r: usize, k: usize) {
    for half in 0..1 << (r - 1) {
        let d = record(3, r, 2 * half + 1, mask);
        every_payload(&d, k);
        for start in 0..1 << r {
            every_payload(&with_start(&d, start), k);
        }
    }
}

/// Every payload of k bits, at most 8.
fn every_payload(d: &[u8], k: usize) {
    for payload in 0..1 << k {
        let packed = (payload << (8 - k)) as u8;
        assert_eq!(check(d, &[packed], &[0xEE]), 0);
    }
}

/// The larger the code, the fewer the payloads: the reference adds up 3^n bits.
#[test]
fn random_payloads() {
    let mut random = Random::new(1);
    for n in LAYERS {
        for _ in 0..(200_000 >> n).max(500) {
            let d = samples::description(&mut random, n);
            let code = describe(&d).expect("a code");
            let payload = samples::payload(&mut random, code.k);
            let before = random.bytes(code.size() / 8);
            assert_eq!(check(&d, &payload, &before), 0);
        }
    }
}

#[test]
fn payloads_of_a_lone_one() {
    for_descriptions(2, LAYERS, 1, |random, d, code| {
        for place in (0..code.k).step_by(1 + code.k / 64) {
            let mut payload = vec![0; packed_length(code.k)];
            payload[place / 8] = 0x80 >> (place % 8);
            assert_eq!(check(d, &payload, &random.bytes(code.size() / 8)), 0);
        }
    });
}

#[test]
fn payloads_of_a_wrong_length() {
    for_descriptions(3, LAYERS, 50, |random, d, code| {
        let right = packed_length(code.k);
        for length in (0..2 * right + 3).filter(|&length| length != right) {
            let before = random.bytes(code.size() / 8);
            assert_eq!(check(d, &random.bytes(length), &before), 9);
            assert_eq!(check(d, &vec![0; length], &before), 9);
        }
    });
}

/// Each unused bit alone, then all of them.
#[test]
fn unused_bits() {
    for_descriptions(4, LAYERS, 1_000, |random, d, code| {
        let unused = 8 * packed_length(code.k) - code.k;
        let alone = (0..unused).map(|bit| 1 << bit);
        for bits in alone.chain([(1 << unused) - 1]).filter(|&bits| bits > 0) {
            let mut payload = samples::payload(random, code.k);
            *payload.last_mut().expect("a byte") |= bits as u8;
            assert_eq!(check(d, &payload, &random.bytes(code.size() / 8)), 10);
        }
    });
}

#[test]
fn outputs_of_a_wrong_length() {
    for_descriptions(5, LAYERS, 50, |random, d, code| {
        let right = code.size() / 8;
        let payload = samples::payload(random, code.k);
        let lengths = (0..right + 9).chain([2 * right, code.size(), 65_536]);
        for length in lengths.filter(|&length| length != right) {
            assert_eq!(check(d, &payload, &random.bytes(length)), 11);
        }
    });
}

#[test]
fn refused_descriptions() {
    for_refused_descriptions(6, 1_000, |random, d, refusal| {
        let payload = vec![0; random.below(LONGEST_BYTES + 2)];
        let before = vec![0xEE; random.below(LONGEST_BYTES + 2)];
        assert_eq!(check(d, &payload, &before), refusal);
    });
}

/// A bit changed in the header or in one of the first bytes of the mask, with a payload and an
/// output that suited the description before.
#[test]
fn damaged_descriptions() {
    for_descriptions(7, LAYERS, 5, |random, d, code| {
        let payload = samples::payload(random, code.k);
        let before = random.bytes(code.size() / 8);
        for place in 0..d.len().min(40) {
            let mut damaged = d.to_vec();
            damaged[place] ^= 1 << random.below(8);
            check(&damaged, &payload, &before);
        }
    });
}

/// Faults of every kind at once, so that their order decides.
#[test]
fn several_faults() {
    let mut random = Random::new(8);
    let mut met = Met::default();
    for _ in 0..20_000 {
        let n = random.between(3, 7);
        let mut d = samples::description(&mut random, n);
        let code = describe(&d).expect("a code");
        let mut payload = samples::payload(&mut random, code.k);
        let mut before = random.bytes(code.size() / 8);
        samples::spoil_description(&mut random, &mut d);
        if random.bit() {
            *payload.last_mut().expect("a byte") |= random.byte();
        }
        if random.below(3) == 0 {
            payload.resize(random.below(20), 0xFF);
        }
        if random.bit() {
            before.resize(random.below(20), 0xEE);
        }
        met.count(check(&d, &payload, &before));
    }
    met.are_all(&[&[0], &REFUSALS, &[9, 10, 11]]);
}
