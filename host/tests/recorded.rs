//! Answers for codes of up to n = 10, recorded from a library with no larger n and without half
//! restart: a library with more gives the same, output and steps included.

use std::ops::RangeInclusive;

use host::reference::description::{describe, with_start};
use host::reference::sets::LIMITS_OF_SETS;
use host::testing::call::{for_calls, Call};
use host::testing::guard::{lend_input, lend_numbers};
use host::testing::lent::answers;
use host::testing::library;
use host::testing::random::Random;
use host::testing::samples;

/// The n of the recorded codes.
const LAYERS: RangeInclusive<usize> = 3..=10;

/// The sums of all inputs, of what reading a description gives, and of the answers and outputs of
/// each operation. Where the first differs, the inputs are others and the rest says nothing.
const RECORDED: [(&str, u64); 8] = [
    ("inputs", 0x50E9_4443_A56D_B95E),
    ("description", 0x577C_9043_E9BD_B962),
    ("encode", 0x56C4_4495_A22A_96AE),
    ("resume", 0xCB50_896F_684F_C477),
    ("full", 0x9B9F_FD29_8B42_5F14),
    ("restarted", 0x6AC8_F177_3431_271D),
    ("sets, full", 0x8C1D_3A28_2015_A9E2),
    ("sets, restarted", 0x6CA9_B4B1_6E06_BA49),
];

/// A sum over bytes in their order: FNV-1a.
#[derive(Clone, Copy)]
struct Sum(u64);

impl Sum {
    const EMPTY: Sum = Sum(0xCBF2_9CE4_8422_2325);

    fn add(&mut self, bytes: &[u8]) {
        for byte in bytes {
            self.0 = (self.0 ^ u64::from(*byte)).wrapping_mul(0x0100_0000_01B3);
        }
    }

    fn add_number(&mut self, number: u64) {
        self.add(&number.to_le_bytes());
    }
}

fn add_inputs(sum: &mut Sum, call: &Call, d: &[u8]) {
    for bytes in [d, &call.payload, &call.channel, &call.prefix] {
        sum.add_number(bytes.len() as u64);
        sum.add(bytes);
    }
    let room = call.room.map(|length| length as u64);
    let numbers = [call.most_flips.into(), call.limit.into()];
    for number in numbers.into_iter().chain(room) {
        sum.add_number(number);
    }
}

fn add_description(sum: &mut Sum, d: &[u8]) {
    let read = |numbers: &mut _| lend_input(d, |d| library::description(d, numbers));
    let (answer, numbers) = lend_numbers([0; 5], read);
    for number in [answer].into_iter().chain(numbers) {
        sum.add_number(number);
    }
}

/// Adds a call with a description to each sum.
fn add(sums: &mut [Sum; 8], call: &Call, d: &[u8]) {
    let [inputs, description, operations @ ..] = sums;
    add_inputs(inputs, call, d);
    add_description(description, d);
    for (sum, (answer, output)) in operations.iter_mut().zip(answers(call, d)) {
        sum.add_number(answer);
        sum.add(&output);
    }
}

/// Now and then takes the largest limit that both flips and sets have.
fn prolong(random: &mut Random, call: &mut Call) {
    if random.below(40) == 0 {
        let code = describe(&call.description).expect("a code");
        call.limit = (*LIMITS_OF_SETS.end()).min(code.information() as u32 + 1);
    }
}

/// Now and then changes a byte of a description, but not to an n that only some libraries refuse.
fn damage(random: &mut Random, d: &mut [u8]) {
    if random.below(6) == 0 {
        let place = random.below(d.len());
        let byte = random.byte();
        if place != 4 || !(11..20).contains(&byte) {
            d[place] = byte;
        }
    }
}

/// Of kind 1 and of kind 4, some with a fault.
#[test]
fn answers_are_those_recorded() {
    let mut sums = [Sum::EMPTY; 8];
    for_calls(23, LAYERS, |random, mut call| {
        prolong(random, &mut call);
        let start = samples::nonzero_start(random, call.description[5].into());
        let mut with_start = with_start(&call.description, start);
        let mut plain = call.description.clone();
        for d in [&mut plain, &mut with_start] {
            damage(random, d);
            add(&mut sums, &call, d);
        }
    });
    let found = sums.map(|Sum(sum)| format!("{sum:016X}"));
    println!("{found:?}");
    for ((name, recorded), found) in RECORDED.into_iter().zip(found) {
        assert_eq!(found, format!("{recorded:016X}"), "{name}");
    }
}

/// Published sums of this kind.
#[test]
fn sums_of_texts() {
    let of = |text: &str| {
        let mut sum = Sum::EMPTY;
        sum.add(text.as_bytes());
        sum.0
    };
    assert_eq!(of("a"), 0xAF63_DC4C_8601_EC8C);
    assert_eq!(of("foobar"), 0x8594_4171_F739_67E8);
}
