//! States that stay in their place, are moved, and go on beside each other; buffers that held anything.

use host::reference::hearing::MOST_HEARINGS;
use host::reference::sizes::{HEARING_SIZE, LAYERS};
use host::testing::cab::Cab;
use host::testing::guard::lend_output;
use host::testing::hearing::{damage, Call};
use host::testing::random::Random;
use host::testing::samples;

use crate::cabs::{after, of_both_kinds};

/// Makes calls one by one, each on a copy of what the one before has left. Gives their numbers and the
/// last state.
fn on_copies(calls: &[Call], before: &[u8]) -> (Vec<u64>, Vec<u8>) {
    let mut state = before.to_vec();
    let numbers = calls.iter().map(|call| call.make(&mut state)).collect();
    (numbers, state)
}

/// Some calls, and what the buffer holds before them.
fn some_calls(random: &mut Random, n: usize) -> (Vec<Call>, Vec<u8>) {
    let [_, cab] = of_both_kinds(random, n, true);
    let mut calls = cab.mixed_calls(random);
    calls.truncate(60);
    (calls, random.bytes(HEARING_SIZE))
}

/// A buffer that stays where it is goes through the same states as copies of it.
#[test]
fn in_one_place() {
    let mut random = Random::new(1);
    for n in LAYERS {
        let (calls, before) = some_calls(&mut random, n);
        let in_place = lend_output(&before, |state| {
            let number = |call: &Call| call.make_in_place(state).0;
            calls.iter().map(number).collect::<Vec<u64>>()
        });
        assert_eq!(in_place, on_copies(&calls, &before));
    }
}

/// A state may stand at any address, and be moved to another before each call.
#[test]
fn at_any_address() {
    let mut random = Random::new(2);
    for n in LAYERS {
        let (calls, before) = some_calls(&mut random, n);
        let mut state = before.clone();
        let mut numbers = Vec::new();
        for (index, call) in calls.iter().enumerate() {
            let first = index % 17;
            let mut room = [&vec![0xEE; first][..], &state, &[0xEE; 17]].concat();
            let place = first..first + HEARING_SIZE;
            numbers.push(call.make_in_place(&mut room[place.clone()]).0);
            state.copy_from_slice(&room[place]);
        }
        assert_eq!((numbers, state), on_copies(&calls, &before));
    }
}

/// Two hearings whose calls take turns are what each is alone.
#[test]
fn two_at_once() {
    let mut random = Random::new(3);
    for n in LAYERS {
        let m = samples::layers(&mut random);
        let both = [n, m].map(|n| some_calls(&mut random, n));
        let [one, other] = both.each_ref().map(|(calls, _)| calls);
        let mut states = both.each_ref().map(|(_, before)| before.clone());
        let mut numbers = [vec![], vec![]];
        for calls in one.iter().zip(other) {
            numbers[0].push(calls.0.make_in_place(&mut states[0]).0);
            numbers[1].push(calls.1.make_in_place(&mut states[1]).0);
        }
        for ((numbers, state), (calls, before)) in numbers.into_iter().zip(states).zip(&both) {
            assert_eq!((numbers, state), on_copies(calls, before));
        }
    }
}

/// Opening gives the same state, whatever the buffer held.
#[test]
fn open_over_anything() {
    let mut random = Random::new(4);
    for n in LAYERS {
        for cab in of_both_kinds(&mut random, n, true) {
            let fresh = after(&mut random, &cab, 0);
            for mut state in held(&mut random, &cab) {
                assert_eq!(cab.open().make(&mut state), 0);
                assert_eq!(state, fresh);
            }
        }
    }
}

/// Zeros, ones, anything, a hearing of the same code, a full one of another, a damaged one.
fn held(random: &mut Random, cab: &Cab) -> [Vec<u8>; 6] {
    let n = samples::layers(random);
    let [other, _] = of_both_kinds(random, n, true);
    let mut damaged = after(random, cab, 1);
    damage(random, &mut damaged);
    damaged.resize(HEARING_SIZE, 0xEE);
    [
        vec![0; HEARING_SIZE],
        vec![0xFF; HEARING_SIZE],
        random.bytes(HEARING_SIZE),
        after(random, cab, 3),
        after(random, &other, MOST_HEARINGS),
        damaged,
    ]
}
