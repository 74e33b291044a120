//! Refusals, alone and in their order.

use host::reference::description::REFUSALS;
use host::reference::refusal::{refusal_number, Refusal};
use host::reference::sizes::{LAYERS, LONGEST, LONGEST_BYTES};
use host::testing::decoders::check;
use host::testing::faulty::each_pair;
use host::testing::met::Met;
use host::testing::random::Random;
use host::testing::samples::{self, for_descriptions, for_refused_descriptions};

use crate::calls::{limit, room};

#[test]
fn values_out_of_range() {
    for_descriptions(7, LAYERS, 100, |random, d, code| {
        let size = code.size();
        let before = room(random, d);
        for place in [0, size - 1, random.below(size)] {
            let mut channel = samples::channel(random, size, 31);
            channel[place] = samples::value_out_of_range(random);
            let refused = Err(Refusal::At(13, place));
            assert_eq!(check(d, &channel, 1, &before), refused);
        }
    });
}

#[test]
fn wrong_lengths() {
    for_descriptions(8, LAYERS, 50, |random, d, code| {
        let size = code.size();
        let channel = samples::channel(random, size, 31);
        let before = room(random, d);
        for length in [0, 1, size / 2, size - 1, size + 1, 2 * size, 65_536] {
            let answer = check(d, &vec![0; length], 1, &before);
            assert_eq!(refusal_number(&answer), 12);
        }
        let right = before.len();
        let lengths = [0, right - 1, right + 1, 2 * right, size, 65_536];
        for length in lengths.into_iter().filter(|&length| length != right) {
            let answer = check(d, &channel, 1, &random.bytes(length));
            assert_eq!(refusal_number(&answer), 15);
        }
    });
}

#[test]
fn refused_descriptions() {
    for_refused_descriptions(9, 500, |random, d, refusal| {
        let channel = vec![0; random.below(LONGEST + 80)];
        let before = vec![0xEE; random.below(LONGEST_BYTES + 2)];
        let limit = random.below(20) as u32;
        let answer = check(d, &channel, limit, &before);
        assert_eq!(refusal_number(&answer), refusal);
    });
}

/// Of two faults the first decides.
#[test]
fn each_pair_of_faults() {
    let order = [&REFUSALS[..], &[12, 13, 14, 15]].concat();
    let met = each_pair(&order, |call| {
        let (d, channel) = (&call.description, &call.channel);
        refusal_number(&check(d, channel, call.limit, &call.before))
    });
    met.are_all(&[&order]);
}

/// Faults of every kind at once, so that their order decides.
#[test]
fn several_faults() {
    let mut random = Random::new(10);
    let mut met = Met::default();
    for _ in 0..20_000 {
        let n = random.between(3, 6);
        let size = 1 << n;
        let mut d = samples::description(&mut random, n);
        let mut channel = samples::channel(&mut random, size, 31);
        let mut before = room(&mut random, &d);
        let mut limit = limit(&mut random, &d, 5);
        samples::spoil_description(&mut random, &mut d);
        samples::spoil_channel(&mut random, &mut channel);
        if random.below(3) == 0 {
            limit = random.below(size + 4) as u32;
        }
        if random.below(3) == 0 {
            before.resize(random.below(size), 0xEE);
        }
        met.count(refusal_number(&check(&d, &channel, limit, &before)));
    }
    met.are_all(&[&[0], &REFUSALS, &[12, 13, 14, 15, 16]]);
}
