//! Flip sets, by their lowest index.

use host::reference::description::describe;
use host::reference::frame::Frame;
use host::reference::packing::packed_length;
use host::reference::sets::sets_tried;
use host::reference::sizes::LAYERS;
use host::testing::passing::{failing_description, passing_description};
use host::testing::random::Random;
use host::testing::sets::{check, Lent, HALF};

use crate::met::Met;
use crate::middle::{channel, description, middle};

/// The sets among which some are chosen: those of so many trials.
const TRIALS: u32 = 40;

/// Until each was met often enough.
#[test]
fn sets_about_the_middle() {
    let mut random = Random::new(1);
    for n in LAYERS {
        let mut met = Met::default();
        let least = (400 >> n).max(2);
        while !met.has(3, least) {
            let d = description(&mut random, n, &middle(n), 6);
            let channel = channel(&mut random, n);
            check_frame(&mut random, &d, &channel, &mut met, least);
        }
        println!("n = {n}: {met:?}");
    }
}

/// Compares calls whose last trial is the first with so many flips and such a lowest index as were not
/// met often enough, if there is one.
fn check_frame(random: &mut Random, d: &[u8], channel: &[u8], met: &mut Met, least: usize) {
    let frame = Frame::read(d, channel).expect("a frame");
    let sets = sets_tried(&frame, 3, TRIALS);
    for (place, set) in sets.iter().enumerate() {
        let is_like = |other: &Vec<usize>| (other.first(), other.len()) == (set.first(), set.len());
        if met.lacks(frame.code.n, set, least) && !sets[..place].iter().any(is_like) {
            check_sets(random, d, channel, &sets[..=place], met);
        }
    }
}

/// Compares calls whose trials have these sets: the last one is accepted, and under another start all
/// fail.
fn check_sets(random: &mut Random, d: &[u8], channel: &[u8], sets: &[Vec<usize>], met: &mut Met) {
    let accepted = passing_description(d, channel, &sets[sets.len() - 1]);
    let failed = failing_description(d, channel, sets);
    for d in [Some(accepted), failed].iter().flatten() {
        let of = Lent {
            description: d,
            channel,
            most_flips: 3,
            limit: sets.len() as u32,
        };
        check_call(random, of, met);
    }
}

/// Compares a call, and counts its trials.
fn check_call(random: &mut Random, of: Lent, met: &mut Met) {
    let code = describe(of.description).expect("a code");
    let before = random.bytes(packed_length(code.k));
    let (_, sets) = check(of, &before);
    let (answer, _) = HALF.run(of, &before);
    met.count(code.n, answer, &sets[1..]);
}
