//! Frames of every length: codewords under noise, values that were never sent, the longest runs.

use host::reference::description::{
    describe, information_indices, mask_of, record, with_start, Code,
};
use host::reference::encode::codeword;
use host::reference::frame::Frame;
use host::reference::packing::{pack, packed_length};
use host::reference::placing::place;
use host::reference::sets::{limits, sets_tried, LIMITS_OF_SETS};
use host::reference::sizes::{LARGEST_N, LAYERS, LONGEST, MOST_TRIALS};
use host::reference::transform::transform;
use host::testing::passing::passing_description;
use host::testing::random::Random;
use host::testing::samples;
use host::testing::sets::{Lent, ALL};

use crate::outcomes::Outcomes;

/// The code of an accepted description.
fn code_of(d: &[u8]) -> Code {
    describe(d).expect("a code")
}

/// A buffer for the payload, with any content.
fn room(random: &mut Random, d: &[u8]) -> Vec<u8> {
    random.bytes(packed_length(code_of(d).k))
}

/// A trial limit that is allowed, of at most `most`.
fn limit(random: &mut Random, d: &[u8], most_flips: u32, most: usize) -> u32 {
    let largest = *limits(&code_of(d), most_flips).end() as usize;
    random.between(1, most.min(largest)) as u32
}

/// A code of kind 1 with so wide a check that few wrong frames pass.
fn strict_description(random: &mut Random, n: usize) -> Vec<u8> {
    let size = 1 << n;
    let r = random.between(n - 1, 16.min(size / 2));
    let ones = random.between(r + 1, size.min(size / 2 + r));
    let polynomial = samples::polynomial(random, r);
    record(n, r, polynomial, &samples::useful_mask(size, ones))
}

/// A codeword under somewhat more noise than that under which it first failed trial 1.
fn doubtful_channel(random: &mut Random, d: &[u8]) -> Vec<u8> {
    let code = code_of(d);
    let x = codeword(&code, mask_of(d), &random.bits(code.k));
    let mut fails = |noise: &usize| {
        let channel = samples::noisy(random, &x, 12, *noise);
        let frame = Frame::read(d, &channel).expect("a frame");
        frame.passing_payload(&frame.first_trial().bits).is_none()
    };
    let least = (3..30).find(&mut fails).unwrap_or(30);
    let more = random.below(4);
    samples::noisy(random, &x, 12, least + more)
}

/// Compares calls with any w and T on descriptions and channels that `frame` makes, so many for each
/// n, more of the shorter codes.
fn check_frames(
    seed: u64,
    count: usize,
    most: usize,
    mut frame: impl FnMut(&mut Random, usize, usize) -> (Vec<u8>, Vec<u8>),
) -> Outcomes {
    let mut random = Random::new(seed);
    let mut outcomes = Outcomes::default();
    for n in LAYERS {
        for round in 0..(count >> n).max(60) {
            let (d, channel) = frame(&mut random, n, round);
            let most_flips = samples::most_flips(&mut random);
            let of = Lent {
                description: &d,
                channel: &channel,
                most_flips,
                limit: limit(&mut random, &d, most_flips, most),
            };
            outcomes.check(of, &room(&mut random, &d));
        }
    }
    println!("{outcomes:?}");
    outcomes
}

/// Codewords under noise at which nearly half of the frames need a later trial.
#[test]
fn noise() {
    let outcomes = check_frames(1, 50_000, 80, |random, n, _| {
        let d = strict_description(random, n);
        let d = samples::either_kind(random, d);
        let channel = doubtful_channel(random, &d);
        (d, channel)
    });
    outcomes.accept_at_least([5_000, 2_500, 800, 120]);
    assert!(outcomes.failed >= 1_000, "{outcomes:?}");
}

/// Values that were never sent: any, small ones with zeros and ties, of one magnitude, all zero.
#[test]
fn garbage() {
    let outcomes = check_frames(2, 40_000, 20, |random, n, round| {
        let size = 1 << n;
        let d = samples::description(random, n);
        let channel = match round % 4 {
            0 => samples::channel(random, size, 31),
            1 => samples::channel(random, size, 1),
            2 => random
                .bits(size)
                .iter()
                .map(|bit| [7, 249][usize::from(*bit)])
                .collect(),
            _ => vec![0; size],
        };
        (d, channel)
    });
    outcomes.accept_at_least([1_000, 1_000, 300, 10]);
}

/// The strongest values, of bits whose check is mostly wrong: leaf values reach their bound, and
/// metrics come near theirs.
#[test]
fn strong_values() {
    let outcomes = check_frames(3, 20_000, 60, |random, n, _| {
        let size = 1 << n;
        let r = random.between(1, 6);
        let ones = random.between(r + 1, 20.min(size));
        let polynomial = samples::polynomial(random, r);
        let d = record(n, r, polynomial, &samples::useful_mask(size, ones));
        let d = samples::either_kind(random, d);
        let x = transform(&place(mask_of(&d), &random.bits(ones)));
        let noise = random.below(3);
        let channel = samples::noisy(random, &x, 31, noise);
        (d, channel)
    });
    outcomes.accept_at_least([300, 1_000, 300, 20]);
}

/// A set of so many flips that is tried for a frame.
fn tried_set(random: &mut Random, d: &[u8], channel: &[u8], flips: usize) -> Option<Vec<usize>> {
    let frame = Frame::read(d, channel).expect("a frame");
    let mut sets = sets_tried(&frame, 3, 50);
    sets.retain(|set| set.len() == flips);
    match sets.len() {
        0 => None,
        count => Some(sets.swap_remove(random.below(count))),
    }
}

/// Trials with one, two and three flips that a chosen start lets pass.
#[test]
fn chosen_sets() {
    let mut random = Random::new(4);
    let mut all = Outcomes::default();
    for n in LAYERS {
        let mut outcomes = Outcomes::default();
        for round in 0..(30_000 >> n).max(30) {
            check_chosen(&mut random, n, 1 + round % 3, &mut outcomes);
        }
        outcomes.accept_at_least([0, 5, 5, 5]);
        all = all.plus(outcomes);
    }
    println!("{all:?}");
    all.accept_at_least([0, 1_500, 1_000, 700]);
    assert_eq!(all.failed + all.used_up, 0, "{all:?}");
}

/// Compares a call that a set of so many flips accepts, on a codeword under noise or on any values;
/// nothing where no such set is tried.
fn check_chosen(random: &mut Random, n: usize, flips: usize, outcomes: &mut Outcomes) {
    let d = strict_description(random, n);
    let channel = match random.bit() {
        true => doubtful_channel(random, &d),
        false => samples::channel(random, 1 << n, 31),
    };
    let Some(set) = tried_set(random, &d, &channel, flips) else {
        return;
    };
    let d = passing_description(&d, &channel, &set);
    let of = Lent {
        description: &d,
        channel: &channel,
        most_flips: 3,
        limit: random.between(50, 60) as u32,
    };
    outcomes.check(of, &room(random, &d));
}

/// Seven information indices, the strongest of all among them, under strong values: sets with it come
/// last, and their metrics reach the bound of a leaf value.
#[test]
fn strong_sets() {
    let mut random = Random::new(7);
    let mut outcomes = Outcomes::default();
    for n in LAYERS {
        for round in 0..(3_000 >> n).max(12) {
            check_strong(&mut random, n, 1 + round % 3, &mut outcomes);
        }
    }
    println!("{outcomes:?}");
    outcomes.accept_at_least([0, 100, 100, 100]);
    assert_eq!(outcomes.failed + outcomes.used_up, 0, "{outcomes:?}");
}

/// Compares a call that a set of so many flips, with the strongest index, accepts. The only other
/// message that passes differs at all seven indices.
fn check_strong(random: &mut Random, n: usize, flips: usize, outcomes: &mut Outcomes) {
    let mut mask = samples::mask(random, (1 << n) - 1, 6);
    mask.push(true);
    let d = record(n, 6, 0b11_1111, &mask);
    let x = transform(&place(mask_of(&d), &random.bits(7)));
    let channel = samples::noisy(random, &x, 31, 1);
    let mut set = information_indices(mask_of(&d));
    while set.len() > flips {
        set.remove(random.below(set.len() - 1));
    }
    let d = passing_description(&d, &channel, &set);
    let of = Lent {
        description: &d,
        channel: &channel,
        most_flips: 3,
        limit: *LIMITS_OF_SETS.end(),
    };
    outcomes.check(of, &room(random, &d));
}

/// The longest runs: the longest code, every trial made.
fn check_most_trials(ones: usize, most_flips: u32, limit: u32) {
    let mut random = Random::new(5);
    let mut outcomes = Outcomes::default();
    let d = record(LARGEST_N, 16, 0x8005, &samples::useful_mask(LONGEST, ones));
    let d = with_start(&d, 0xFFFF);
    let channel = samples::channel(&mut random, LONGEST, 31);
    let of = Lent {
        description: &d,
        channel: &channel,
        most_flips,
        limit,
    };
    outcomes.check(of, &room(&mut random, &d));
    assert_eq!(outcomes.failed, 1);
}

#[test]
fn the_most_trials_of_one_flip() {
    check_most_trials(LONGEST, 1, MOST_TRIALS as u32);
}

#[test]
fn the_most_trials_of_more_flips() {
    let most = *LIMITS_OF_SETS.end();
    check_most_trials(LONGEST, 2, most);
    check_most_trials(LONGEST / 2, 3, most);
}

/// The payload on trial 1, by all decoders.
#[test]
fn right_signs() {
    let mut random = Random::new(6);
    for n in LAYERS {
        for _ in 0..(20_000 >> n).max(50) {
            let d = samples::description(&mut random, n);
            let code = code_of(&d);
            let payload = random.bits(code.k);
            let x = codeword(&code, mask_of(&d), &payload);
            let channel = samples::noiseless(&mut random, &x);
            let most_flips = samples::most_flips(&mut random);
            let of = Lent {
                description: &d,
                channel: &channel,
                most_flips,
                limit: limit(&mut random, &d, most_flips, usize::MAX),
            };
            let accepted = (1 << 8) + ((n << n) << 32);
            for decoder in ALL {
                let answer = decoder.run(of, &room(&mut random, &d));
                assert_eq!(answer, (accepted as u64, pack(&payload)));
            }
        }
    }
}
