//! Lists of calls on one state.

use host::reference::description::REFUSALS;
use host::reference::sizes::{HEARING_SIZE, LAYERS};
use host::testing::hearing::{Call, Tally};
use host::testing::random::Random;
use host::testing::samples;

use crate::cabs::of_both_kinds;

/// Makes calls on a state that held anything.
fn make(random: &mut Random, calls: &[Call], tally: &mut Tally) {
    assert!(calls.len() <= 300);
    let mut state = random.bytes(HEARING_SIZE);
    for call in calls {
        tally.make(call, &mut state);
    }
}

/// That each answer was met, but for 40.
fn check_met(tally: &Tally) {
    tally.open.are_all(&[&[0], &REFUSALS]);
    tally.add.are_all(&[&[0, 12, 13, 27]]);
    tally.clear.are_all(&[&[0]]);
    tally.full.are_all(&[&[0, 14, 15, 16]]);
    tally.restarted.are_all(&[&[0, 14, 15, 16]]);
    tally.preview.are_all(&[&[0, 12, 13, 27, 14, 15, 16]]);
    tally.decoded.at_least(20);
    tally.previewed.at_least(20);
}

/// Filled hearings, and calls of all exports, of both kinds; more of short codes.
#[test]
fn lists_of_calls() {
    let mut random = Random::new(1);
    let mut calls = [0; 6];
    for n in LAYERS {
        let mut tally = Tally::default();
        for round in 0..(400 >> n).max(12) {
            for cab in of_both_kinds(&mut random, n, round % 3 > 0) {
                for calls in [cab.filling_calls(&mut random), cab.mixed_calls(&mut random)] {
                    make(&mut random, &calls, &mut tally);
                }
            }
        }
        println!("n = {n}: {tally:?}");
        check_met(&tally);
        for (sum, met) in calls.iter_mut().zip(tally.all()) {
            *sum += met.calls();
        }
    }
    println!("open, add, clear, decode_full, decode_restarted, preview: {calls:?} calls");
    assert!(calls.iter().sum::<usize>() >= 50_000, "{calls:?}");
    assert!(calls.iter().all(|&of| of >= 2_000), "{calls:?}");
}

/// Codes of any n, one after the other in the same buffer; each leaves a hearing to the next open.
#[test]
fn codes_one_after_the_other() {
    let mut random = Random::new(2);
    let mut tally = Tally::default();
    let mut state = random.bytes(HEARING_SIZE);
    for round in 0..400 {
        let n = samples::layers(&mut random);
        let [cab, _] = of_both_kinds(&mut random, n, round % 2 == 0);
        let mut calls = cab.mixed_calls(&mut random);
        calls.truncate(random.between(1, 12));
        for call in calls {
            tally.make(&call, &mut state);
        }
    }
    tally.clear.are_all(&[&[0]]);
    tally.add.are_all(&[&[0, 12, 13]]);
}
