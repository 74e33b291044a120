//! States that calls have not left: 40 answers each of them, and nothing is changed.

use host::reference::hearing::{Hearing, MOST_HEARINGS};
use host::reference::sizes::{HEARING_SIZE, LARGEST_N, LAYERS};
use host::testing::cab::Cab;
use host::testing::hearing::{damage, refusal, Call, Tally};
use host::testing::random::Random;
use host::testing::samples;

use crate::cabs::{after, of_both_kinds, COUNT, VALUES};

/// Makes a call of each export on copies of some bytes. Gives whether they are a state, which is up to
/// the reference: then calls leave them too.
fn try_each(random: &mut Random, cab: &Cab, state: &[u8], tally: &mut Tally) -> bool {
    let is_state = Hearing::from_bytes(state).is_ok();
    let may_be_opened = state.len() == HEARING_SIZE;
    for call in Call::each(&cab.lent(random)) {
        let refusal = tally.make(&call, &mut state.to_vec());
        let is_open = matches!(call, Call::Open(_));
        let is_refused = if is_open { !may_be_opened } else { !is_state };
        assert_eq!(refusal == 40, is_refused, "{call}");
    }
    if is_state {
        replay(state);
    }
    is_state
}

/// That calls leave these bytes.
fn replay(state: &[u8]) {
    let hearing = Hearing::from_bytes(state).expect("a hearing");
    let mut replayed = vec![0xEE; HEARING_SIZE];
    Call::Open(hearing.description.clone()).make(&mut replayed);
    let zeros = Call::Add(vec![0; hearing.values.len()]);
    for _ in 1..hearing.count {
        zeros.make(&mut replayed);
    }
    if hearing.count > 0 {
        Call::Add(hearing.channel()).make(&mut replayed);
    }
    assert_eq!(replayed, state);
}

/// A state with one byte changed.
fn changed(state: &[u8], place: usize, difference: u8) -> Vec<u8> {
    let mut state = state.to_vec();
    state[place] ^= difference;
    state
}

/// Every byte of a state changed in turn: two of its bits, and to any other.
fn change_each_byte(random: &mut Random, cab: &Cab, state: &[u8], tally: &mut Tally) {
    let mut states = 0;
    for place in 0..HEARING_SIZE {
        let bit = random.below(8);
        let other = random.between(1, 255) as u8;
        for difference in [1 << bit, 1 << ((bit + 3) % 8), other] {
            let changed = changed(state, place, difference);
            states += usize::from(try_each(random, cab, &changed, tally));
        }
    }
    println!("{states} of {} are states", 3 * HEARING_SIZE);
    assert!(states > 0);
}

/// Fresh, after some adds, and full; of short codes, so that most bytes are zeros that must stay.
#[test]
fn every_byte_changed() {
    let mut random = Random::new(1);
    let mut tally = Tally::default();
    for n in [3, 4] {
        for cab in of_both_kinds(&mut random, n, true) {
            for adds in [0, 3, MOST_HEARINGS] {
                let state = after(&mut random, &cab, adds);
                change_each_byte(&mut random, &cab, &state, &mut tally);
            }
        }
    }
    println!("{tally:?}");
    tally.open.are_all(&[&[0]]);
    tally.add.are_all(&[&[0, 27, 40]]);
    tally.clear.are_all(&[&[0, 40]]);
    tally.full.are_all(&[&[0, 14, 15, 16, 40]]);
    tally.restarted.are_all(&[&[0, 14, 15, 16, 40]]);
    tally.preview.are_all(&[&[0, 14, 15, 16, 27, 40]]);
}

/// The bytes that a state of n = 3 uses, and those next to them, changed to each other value. Gives
/// how often they were a state again.
fn change_used_bytes(random: &mut Random, cab: &Cab, state: &[u8], tally: &mut Tally) -> usize {
    let used = (0..=cab.description.len()).chain(COUNT - 1..=VALUES + 8);
    let changes = used.flat_map(|place| (1..=255).map(move |difference| (place, difference)));
    let is_state = |&(place, difference): &(usize, u8)| {
        try_each(random, cab, &changed(state, place, difference), tally)
    };
    changes.filter(is_state).count()
}

#[test]
fn every_value_of_used_bytes() {
    let mut random = Random::new(7);
    let mut tally = Tally::default();
    let mut states = 0;
    for cab in of_both_kinds(&mut random, 3, true) {
        for adds in [0, 2] {
            let state = after(&mut random, &cab, adds);
            states += change_used_bytes(&mut random, &cab, &state, &mut tally);
        }
    }
    println!("{states} are states: {tally:?}");
    assert!(states >= 2_000, "{states}");
}

/// The first and the last byte of each part, and of the zeros after it.
fn change_ends(random: &mut Random, cab: &Cab, state: &[u8], tally: &mut Tally) {
    let description = cab.description.len();
    let values = VALUES + (1 << cab.code().n);
    let of_description = [0, description - 1, description, COUNT - 1];
    let of_values = [VALUES, values - 1, values, HEARING_SIZE - 1];
    let ends = of_description.into_iter().chain([COUNT]).chain(of_values);
    for place in ends.filter(|&place| place < HEARING_SIZE) {
        for difference in [1, 0x80, random.between(1, 255) as u8] {
            try_each(random, cab, &changed(state, place, difference), tally);
        }
    }
}

/// The longest codes leave no zeros after their parts, or two.
#[test]
fn ends_of_parts() {
    let mut random = Random::new(8);
    let mut tally = Tally::default();
    for n in LAYERS {
        for cab in of_both_kinds(&mut random, n, true) {
            for adds in [0, 2] {
                let state = after(&mut random, &cab, adds);
                change_ends(&mut random, &cab, &state, &mut tally);
            }
        }
    }
    println!("{tally:?}");
    tally.clear.are_all(&[&[0, 40]]);
}

/// States of any n with one bit changed, mostly of a byte that is used.
#[test]
fn any_bit_changed() {
    let mut random = Random::new(2);
    let mut tally = Tally::default();
    let mut states = 0;
    for round in 0..1_200 {
        let n = samples::layers(&mut random);
        for cab in of_both_kinds(&mut random, n, true) {
            let state = after(&mut random, &cab, round % 3);
            let place = match round % 4 {
                0 => random.below(cab.description.len()),
                1 => COUNT,
                2 => VALUES + random.below(1 << n),
                _ => random.below(HEARING_SIZE),
            };
            let changed = changed(&state, place, 1 << random.below(8));
            states += usize::from(try_each(&mut random, &cab, &changed, &mut tally));
        }
    }
    println!("{states} are states: {tally:?}");
    assert!((600..1_800).contains(&states), "{states}");
}

/// The bytes of a state, and fewer or more.
#[test]
fn other_sizes() {
    let mut random = Random::new(3);
    let mut tally = Tally::default();
    for n in [3, 7, LARGEST_N] {
        for cab in of_both_kinds(&mut random, n, true) {
            let state = after(&mut random, &cab, 2);
            change_size(&mut random, &cab, &state, &mut tally);
        }
    }
    for met in tally.all() {
        met.are_all(&[&[40]]);
    }
}

fn change_size(random: &mut Random, cab: &Cab, state: &[u8], tally: &mut Tally) {
    let used = VALUES + (1 << cab.code().n);
    let near = [0, 1, 2, 8, used - 1, HEARING_SIZE - 1, HEARING_SIZE + 1];
    let far = [2 * HEARING_SIZE, 65_536, 65_536 + HEARING_SIZE];
    for size in near.into_iter().chain(far) {
        let mut other = state.to_vec();
        other.resize(size, 0);
        try_each(random, cab, &other, tally);
    }
}

/// Bytes that were never a state.
#[test]
fn anything() {
    let mut random = Random::new(4);
    let mut tally = Tally::default();
    let [cab, _] = of_both_kinds(&mut random, 4, true);
    for byte in 0..=255 {
        try_each(&mut random, &cab, &[byte; HEARING_SIZE], &mut tally);
    }
    for _ in 0..500 {
        let state = random.bytes(HEARING_SIZE);
        try_each(&mut random, &cab, &state, &mut tally);
    }
    for met in &tally.all()[1..] {
        met.are_all(&[&[40]]);
    }
}

/// The parts of two states: the description of one, the count and the values of either.
fn put_together(one: &[u8], other: &[u8]) -> [Vec<u8>; 4] {
    let description = &one[..COUNT];
    [[one, one], [one, other], [other, one], [other, other]]
        .map(|[count, values]| [description, &count[COUNT..VALUES], &values[VALUES..]].concat())
}

#[test]
fn parts_of_two_states() {
    let mut random = Random::new(5);
    let mut tally = Tally::default();
    let mut states = 0;
    for _ in 0..300 {
        let [(one, cab), (other, _)] = [(); 2].map(|_| {
            let n = random.between(3, 7);
            let [cab, _] = of_both_kinds(&mut random, n, true);
            let adds = random.below(3);
            (after(&mut random, &cab, adds), cab)
        });
        for state in put_together(&one, &other) {
            states += usize::from(try_each(&mut random, &cab, &state, &mut tally));
        }
    }
    println!("{states} are states: {tally:?}");
    assert!((600..1_000).contains(&states), "{states}");
}

/// A call that is refused for a damaged state leaves it as it was, however it was damaged.
#[test]
fn nothing_is_mended() {
    let mut random = Random::new(6);
    for _ in 0..300 {
        let n = samples::layers(&mut random);
        let [_, cab] = of_both_kinds(&mut random, n, true);
        let mut state = after(&mut random, &cab, 2);
        damage(&mut random, &mut state);
        let before = state.clone();
        for call in &Call::each(&cab.lent(&mut random))[1..] {
            assert_eq!(refusal(call.make(&mut state)), 40);
        }
        assert_eq!(state, before);
    }
}
