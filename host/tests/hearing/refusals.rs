//! Refusals, alone and in their order: 40 before all others.

use host::reference::description::REFUSALS;
use host::reference::hearing::Hearing;
use host::reference::sizes::{HEARING_SIZE, LAYERS};
use host::testing::cab::Cab;
use host::testing::faulty::{each_pair, Faulty};
use host::testing::hearing::{refusal, Call, BOTH};
use host::testing::random::Random;
use host::testing::samples::{self, for_descriptions};

use crate::cabs::{after, of_both_kinds};

/// The refusal of a call on the state that it is lent.
fn refused(call: &Call, lent: &Faulty) -> usize {
    refusal(call.make(&mut lent.state.clone()))
}

/// A buffer of another size is refused before a description, whatever is wrong with it.
#[test]
fn pairs_of_open() {
    let met = each_pair(&REFUSALS, |lent| {
        let open = Call::Open(lent.description.clone());
        for size in [0, 1, HEARING_SIZE - 1, HEARING_SIZE + 1] {
            assert_eq!(open.make(&mut vec![0xEE; size]), 40);
        }
        refused(&open, lent)
    });
    met.are_all(&[&REFUSALS]);
}

#[test]
fn pairs_of_add() {
    let order = [40, 12, 13, 27];
    let met = each_pair(&order, |lent| {
        let add = Call::Add(lent.channel.clone());
        refused(&add, lent)
    });
    met.are_all(&[&order]);
}

/// Nothing but the state is lent.
#[test]
fn refusal_of_clear() {
    let met = each_pair(&[40], |lent| refused(&Call::Clear, lent));
    met.are_all(&[&[40]]);
}

#[test]
fn pairs_of_decode() {
    for by in BOTH {
        let decode = |lent: &Faulty| Call::Decode(by, lent.limit, lent.before.clone());
        check_pairs(&[40, 14, 15], decode);
    }
}

/// Those of the add come before those of decoding.
#[test]
fn pairs_of_preview() {
    check_pairs(&[40, 12, 13, 27, 14, 15], Call::preview);
}

/// That these come in their order; without a fault the answer is 16.
fn check_pairs(order: &[usize], call: impl Fn(&Faulty) -> Call) {
    let mut random = Random::new(1);
    let refusal = |lent: &Faulty| refused(&call(lent), lent);
    let mut met = each_pair(order, refusal);
    for _ in 0..100 {
        met.count(refusal(&Faulty::silent(&mut random)));
    }
    met.are_all(&[order, &[16]]);
}

/// The index that 13 carries is the first.
#[test]
fn values_out_of_range() {
    for_descriptions(2, LAYERS, 60, |random, d, code| {
        let size = code.size();
        let mut state = Hearing::open(d).expect("a hearing").to_bytes();
        for first in [0, size - 1, random.below(size)] {
            let mut channel = samples::channel(random, size, 31);
            for place in [first, random.between(first, size - 1)] {
                channel[place] = samples::value_out_of_range(random);
            }
            for call in tried_and_added(random, channel) {
                let number = call.make(&mut state);
                assert_eq!(number, 13 + ((first as u64) << 8));
            }
        }
    });
}

#[test]
fn wrong_lengths() {
    for_descriptions(3, LAYERS, 20, |random, d, code| {
        let size = code.size();
        let mut state = Hearing::open(d).expect("a hearing").to_bytes();
        for length in [0, 1, size / 2, size - 1, size + 1, 2 * size, 65_536] {
            let channel = samples::channel(random, length, 31);
            for call in tried_and_added(random, channel) {
                assert_eq!(call.make(&mut state), 12);
            }
        }
    });
}

/// A preview, with any limit and room, and an add.
fn tried_and_added(random: &mut Random, channel: Vec<u8>) -> [Call; 2] {
    let [limit, room] = [(); 2].map(|_| random.below(9));
    let preview = Call::Preview(channel.clone(), limit as u32, random.bytes(room));
    [preview, Call::Add(channel)]
}

/// Limits from 1 to K + 1 are allowed, before and after adds.
#[test]
fn limits_at_their_edges() {
    let mut random = Random::new(4);
    for n in 3..=7 {
        for cab in of_both_kinds(&mut random, n, false) {
            for adds in 0..3 {
                let state = after(&mut random, &cab, adds);
                check_limits(&mut random, &cab, &state);
            }
        }
    }
}

fn check_limits(random: &mut Random, cab: &Cab, state: &[u8]) {
    let most = cab.code().information() as u32 + 1;
    for limit in [0, 1, 2, most - 1, most, most + 1, 257, 1 << 16, u32::MAX] {
        let lent = Faulty {
            limit,
            ..cab.lent(random)
        };
        for call in &Call::each(&lent)[3..] {
            let is_refused = refusal(call.make(&mut state.to_vec())) == 14;
            assert_eq!(is_refused, !(1..=most).contains(&limit), "{call}");
        }
    }
}
