//! Previews beside what they stand for, an add and restarted decoding, by the library alone.

use std::ops::Range;
use std::thread;

use host::reference::hearing::MOST_HEARINGS;
use host::reference::sizes::{HEARING_SIZE, LAYERS};
use host::testing::cab::Cab;
use host::testing::faulty::Faulty;
use host::testing::guard::{lend_input, lend_output};
use host::testing::hearing::{preview, refusal, Call, RESTARTED};
use host::testing::library;
use host::testing::met::Met;
use host::testing::outcomes::Outcomes;
use host::testing::random::Random;
use host::testing::sealed::Sealed;

use crate::cabs::{after, heard, left, of_both_kinds, VALUES};

/// A number, and the output after the call.
type Answer = (u64, Vec<u8>);

/// An add and restarted decoding on a state as it stands; a refused add ends it there.
fn add_and_decode(state: &mut [u8], lent: &Faulty) -> Answer {
    let (added, _) = Call::Add(lent.channel.clone()).make_in_place(state);
    match refusal(added) {
        0 => Call::Decode(RESTARTED, lent.limit, lent.before.clone()).make_in_place(state),
        _ => (added, lent.before.clone()),
    }
}

/// That a preview answers as both on a copy of the state, then as both on the state itself, and leaves
/// it to them as it was. Gives its answer.
fn check(lent: &Faulty) -> Answer {
    let (on_copy, left) = lend_output(&lent.state, |copy| add_and_decode(copy, lent));
    let (answers, after) = lend_output(&lent.state, |state| {
        let tried = Call::preview(lent).make_in_place(state);
        [tried, add_and_decode(state, lent)]
    });
    assert_eq!(answers, [on_copy.clone(), on_copy.clone()]);
    assert!(after == left, "the preview has changed the state");
    let alone = preview(&lent.state, &lent.channel, lent.limit, &lent.before);
    assert_eq!(alone, on_copy);
    alone
}

/// What a preview is lent, on a state that some calls have left.
fn lent(random: &mut Random, cab: &Cab) -> Faulty {
    Faulty {
        state: left(random, cab),
        ..cab.lent(random)
    }
}

/// The same, now and then with faults.
fn any_lent(random: &mut Random, cab: &Cab) -> Faulty {
    let mut lent = lent(random, cab);
    for fault in [15, 14, 27, 13, 12, 40] {
        if random.below(16) == 0 {
            lent.put_fault(random, fault);
        }
    }
    lent
}

#[test]
fn as_both_on_a_copy() {
    let mut random = Random::new(1);
    for n in LAYERS {
        let (mut met, mut outcomes) = (Met::default(), Outcomes::default());
        for round in 0..(16_000 >> n).max(300) {
            for cab in of_both_kinds(&mut random, n, round % 3 > 0) {
                let (number, _) = check(&any_lent(&mut random, &cab));
                met.count(refusal(number));
                outcomes.count_number(number);
            }
        }
        println!("n = {n}: {met:?}, {outcomes:?}");
        met.are_all(&[&[0, 12, 13, 14, 15, 16, 27, 40]]);
        outcomes.at_least(10);
    }
}

/// Whether one trial fails on a first hearing, and gives the frame sent where a second is tried.
fn settles(random: &mut Random, cab: &Cab) -> bool {
    let [first, second] = [(); 2].map(|_| cab.heard(random));
    let lent = Faulty {
        state: heard(cab, &[&first]),
        channel: second,
        limit: 1,
        ..cab.lent(random)
    };
    let (alone, _) = RESTARTED.run(&lent.state, lent.limit, &lent.before);
    let (tried, payload) = check(&lent);
    refusal(alone) == 16 && refusal(tried) == 0 && payload == cab.payload
}

/// What the operator wants to see before the second hearing is kept.
#[test]
fn a_second_hearing_settles_a_frame() {
    let mut random = Random::new(2);
    for n in LAYERS {
        let mut settled = 0;
        for _ in 0..(4_000 >> n).max(60) {
            for cab in of_both_kinds(&mut random, n, true) {
                settled += usize::from(settles(&mut random, &cab));
            }
        }
        println!("n = {n}: {settled} are settled by the second hearing");
        assert!(settled >= 10, "n = {n}: {settled}");
    }
}

fn is_preview(call: &Call) -> bool {
    matches!(call, Call::Preview(..))
}

/// Makes calls in one place. Gives the answer of each that is no preview, and the state after it.
fn made(calls: &[Call], before: &[u8]) -> Vec<(Answer, Vec<u8>)> {
    let make = |state: &mut [u8]| {
        let mut made = Vec::new();
        for call in calls {
            let answer = call.make_in_place(state);
            if !is_preview(call) {
                made.push((answer, state.to_vec()));
            }
        }
        made
    };
    lend_output(before, make).0
}

/// The calls with previews after each, good and refused.
fn with_previews(random: &mut Random, cab: &Cab, calls: &[Call]) -> Vec<Call> {
    let mut with = Vec::new();
    for call in calls {
        with.extend([call.clone(), cab.preview(random)]);
        if random.below(4) == 0 {
            with.push(cab.refused_preview(random));
        }
    }
    with
}

/// Previews between the calls of a list change none of its answers and states.
#[test]
fn previews_leave_no_trace() {
    let mut random = Random::new(3);
    for n in LAYERS {
        for cab in of_both_kinds(&mut random, n, true) {
            for mut calls in [cab.filling_calls(&mut random), cab.mixed_calls(&mut random)] {
                calls.retain(|call| !is_preview(call));
                let with = with_previews(&mut random, &cab, &calls);
                let before = random.bytes(HEARING_SIZE);
                assert!(made(&with, &before) == made(&calls, &before), "n = {n}");
            }
        }
    }
}

/// Inputs may overlap: N bytes of the state may be the vector, its values among others.
#[test]
fn a_vector_inside_the_state() {
    let mut random = Random::new(4);
    for n in LAYERS {
        let (size, last) = (1 << n, HEARING_SIZE - (1 << n));
        for cab in of_both_kinds(&mut random, n, true) {
            for _ in 0..40 {
                let lent = lent(&mut random, &cab);
                for place in [0, random.between(0, last), last] {
                    inside(&lent, place..place + size);
                }
                assert!([0, 16].contains(&inside(&lent, VALUES..VALUES + size)));
                assert_eq!(inside(&lent, 0..HEARING_SIZE), 12);
            }
        }
    }
}

/// Tries a part of the state as it stands there; a copy of it answers the same. Gives the refusal.
fn inside(lent: &Faulty, part: Range<usize>) -> usize {
    let there = lend_input(&lent.state, |state| {
        lend_output(&lent.before, |output| {
            library::hearing_preview(state, &state[part.clone()], lent.limit, output)
        })
    });
    let copied = preview(&lent.state, &lent.state[part], lent.limit, &lent.before);
    assert_eq!(there, copied);
    refusal(there.0)
}

/// State and vectors in memory that cannot be written, used by several threads at once: each preview
/// answers as it does alone.
#[test]
fn at_once_in_sealed_memory() {
    let mut random = Random::new(5);
    for n in LAYERS {
        for cab in of_both_kinds(&mut random, n, true) {
            let good = [(); 3].map(|_| cab.lent(&mut random));
            let wrong = [12, 13, 14, 15].map(|fault| {
                let mut lent = cab.lent(&mut random);
                lent.put_fault(&mut random, fault);
                lent
            });
            let tried: Vec<Faulty> = good.into_iter().chain(wrong).collect();
            for adds in [2, MOST_HEARINGS] {
                check_at_once(&after(&mut random, &cab, adds), &tried);
            }
        }
    }
}

fn check_at_once(state: &[u8], tried: &[Faulty]) {
    let alone = tried.iter().map(|lent| {
        let answer = preview(state, &lent.channel, lent.limit, &lent.before);
        (Sealed::new(&lent.channel), lent, answer)
    });
    let alone: Vec<(Sealed, &Faulty, Answer)> = alone.collect();
    let state = Sealed::new(state);
    let make_all = || {
        for (channel, lent, expected) in alone.iter().cycle().take(10 * alone.len()) {
            let answer = lend_output(&lent.before, |output| {
                library::hearing_preview(&state, channel, lent.limit, output)
            });
            assert_eq!(answer, *expected);
        }
    };
    thread::scope(|scope| {
        for _ in 0..4 {
            scope.spawn(make_all);
        }
    });
}
