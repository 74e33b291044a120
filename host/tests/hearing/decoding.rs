//! Decoding of what lists of adds leave.

use host::reference::sizes::LAYERS;
use host::testing::cab::Cab;
use host::testing::hearing::{check_decoders, refusal, RESTARTED};
use host::testing::outcomes::Outcomes;
use host::testing::random::Random;

use crate::cabs::{heard, left, of_both_kinds};

/// Full and restarted decoding agree on it, and each is that of the held values.
#[test]
fn full_and_restarted_decoding_agree() {
    let mut random = Random::new(1);
    for n in LAYERS {
        let mut outcomes = Outcomes::default();
        for round in 0..(6_000 >> n).max(200) {
            for cab in of_both_kinds(&mut random, n, round % 3 > 0) {
                let state = left(&mut random, &cab);
                let lent = cab.lent(&mut random);
                outcomes.count(check_decoders(&state, lent.limit, &lent.before));
            }
        }
        println!("n = {n}: {outcomes:?}");
        outcomes.at_least(10);
    }
}

/// What is decoded of some vectors in one trial.
fn decoded(random: &mut Random, cab: &Cab, vectors: &[&[u8]]) -> Option<Vec<u8>> {
    let before = random.bytes(cab.payload.len());
    let (number, payload) = RESTARTED.run(&heard(cab, vectors), 1, &before);
    (refusal(number) == 0).then_some(payload)
}

/// Two hearings that fail one by one and decode together; now and then it is the other way.
#[test]
fn two_weak_hearings() {
    let mut random = Random::new(2);
    for n in LAYERS {
        let (mut gained, mut lost) = (0, 0);
        for _ in 0..(8_000 >> n).max(100) {
            let [cab, _] = of_both_kinds(&mut random, n, true);
            let vectors = [(); 2].map(|_| cab.heard(&mut random));
            let alone = [0, 1].map(|i| decoded(&mut random, &cab, &[&vectors[i]]));
            let both = decoded(&mut random, &cab, &[&vectors[0], &vectors[1]]);
            let is_sent = both.as_ref() == Some(&cab.payload);
            gained += usize::from(is_sent && alone == [None, None]);
            lost += usize::from(!is_sent && alone.contains(&Some(cab.payload)));
        }
        println!("n = {n}: {gained} decode only together, {lost} only alone");
        assert!(gained >= 5, "n = {n}: {gained}");
    }
}
