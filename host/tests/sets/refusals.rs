//! Refused calls: each fault, each pair of faults, several at once.

use host::reference::description::REFUSALS;
use host::reference::packing::packed_length;
use host::reference::refusal::{refusal_number, Refusal};
use host::reference::sets::MOST_FLIPS;
use host::reference::sizes::LAYERS;
use host::testing::call::Call;
use host::testing::faulty::{self, Faulty};
use host::testing::met::Met;
use host::testing::random::Random;
use host::testing::samples::{self, for_descriptions};
use host::testing::sets::{check, Lent};

/// The refusals of a call beside those of its description and 16, in their order.
const OWN: [usize; 5] = [12, 13, 26, 14, 15];

/// Compares a call; gives its refusal.
fn refusal(call: &Faulty) -> usize {
    let of = Lent {
        description: &call.description,
        channel: &call.channel,
        most_flips: call.most_flips,
        limit: call.limit,
    };
    refusal_number(&check(of, &call.before).0)
}

/// Without a fault the answer is 16.
#[test]
fn each_pair_of_faults() {
    let order = [&REFUSALS[..], &OWN].concat();
    let mut met = faulty::each_pair(&order, refusal);
    let mut random = Random::new(1);
    for _ in 0..500 {
        met.count(refusal(&Faulty::silent(&mut random)));
    }
    met.are_all(&[&order, &[16]]);
}

/// Faults of every kind at once, so that their order decides, on short codewords under noise.
#[test]
fn several_faults() {
    let mut random = Random::new(2);
    let mut met = Met::default();
    for _ in 0..10_000 {
        let n = random.between(3, 6);
        let d = samples::useful_description(&mut random, n);
        let mut inputs = Call::new(&mut random, d, 12);
        samples::spoil_description(&mut random, &mut inputs.description);
        samples::spoil_channel(&mut random, &mut inputs.channel);
        let mut call = Faulty {
            before: random.bytes(inputs.room[2]),
            description: inputs.description,
            channel: inputs.channel,
            most_flips: inputs.most_flips,
            limit: inputs.limit,
            state: vec![],
        };
        for refusal in [26, 14, 15] {
            if random.below(4) == 0 {
                call.put_fault(&mut random, refusal);
            }
        }
        met.count(refusal(&call));
    }
    met.are_all(&[&[0], &REFUSALS, &OWN, &[16]]);
}

/// The index that 13 carries is the first.
#[test]
fn values_out_of_range() {
    for_descriptions(3, LAYERS, 60, |random, d, code| {
        let size = code.size();
        for first in [0, size - 1, random.below(size)] {
            let mut channel = samples::channel(random, size, 31);
            for place in [first, random.between(first, size - 1)] {
                channel[place] = samples::value_out_of_range(random);
            }
            let of = Lent {
                description: d,
                channel: &channel,
                most_flips: samples::most_flips(random),
                limit: 1,
            };
            let before = random.bytes(packed_length(code.k));
            assert_eq!(check(of, &before).0, Err(Refusal::At(13, first)));
        }
    });
}

/// Every w near those that are allowed, and those that are in their lower bits alone.
#[test]
fn other_numbers_of_flips() {
    let powers = (0..32).map(|i| 1 << i);
    let near = powers.flat_map(|power| (0..=3).map(move |low| power | low));
    for most_flips in near.chain([0, u32::MAX]) {
        let mut call = Faulty::silent(&mut Random::new(most_flips.into()));
        call.most_flips = most_flips;
        let expected = if MOST_FLIPS.contains(&most_flips) {
            16
        } else {
            26
        };
        assert_eq!(refusal(&call), expected, "{most_flips}");
    }
}
