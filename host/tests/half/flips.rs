//! Single flips.

use host::reference::description::describe;
use host::reference::flip::trials_made;
use host::reference::packing::packed_length;
use host::reference::sizes::LAYERS;
use host::testing::decoders::{check, flipped, HALF};
use host::testing::passing::{failing_description, passing_description};
use host::testing::random::Random;

use crate::met::Met;
use crate::middle::{channel, description, middle};

/// The flip of trial 2, the last one: it is accepted, and under another start it fails.
#[test]
fn the_first_flip() {
    let mut random = Random::new(1);
    for n in LAYERS {
        let mut met = Met::default();
        for round in 0..(9_000 >> n).max(18) {
            let index = middle(n)[round % 3];
            let (d, channel) = first_flip(&mut random, n, index);
            check_flips(&mut random, &d, &channel, &[index], &mut met);
        }
        println!("n = {n}: {met:?}");
        assert!(met.has(1, 3), "{met:?}");
    }
}

/// A frame whose first flip is at an index, and its description.
fn first_flip(random: &mut Random, n: usize, index: usize) -> (Vec<u8>, Vec<u8>) {
    loop {
        let d = description(random, n, &[index], 3);
        let channel = channel(random, n);
        if flipped(&d, &channel, 2) == [index] {
            return (d, channel);
        }
    }
}

/// Flips in any place of the order, of codes that have all three indices.
#[test]
fn any_flip() {
    let mut random = Random::new(2);
    for n in LAYERS {
        let mut met = Met::default();
        for round in 0..(9_000 >> n).max(24) {
            let index = middle(n)[round % 3];
            let d = description(&mut random, n, &middle(n), 9);
            let channel = channel(&mut random, n);
            let mut flips = flipped(&d, &channel, 1 << n);
            let place = flips.iter().position(|&other| other == index);
            flips.truncate(place.expect("an information index") + 1);
            check_flips(&mut random, &d, &channel, &flips, &mut met);
        }
        println!("n = {n}: {met:?}");
        assert!(met.has(1, 3), "{met:?}");
    }
}

/// Compares calls whose later trials are these flips: the last one is accepted, and under another
/// start all fail.
fn check_flips(random: &mut Random, d: &[u8], channel: &[u8], flips: &[usize], met: &mut Met) {
    let mut sets = vec![vec![]];
    sets.extend(flips.iter().map(|&index| vec![index]));
    let accepted = passing_description(d, channel, &sets[flips.len()]);
    let failed = failing_description(d, channel, &sets);
    for d in [Some(accepted), failed].iter().flatten() {
        let code = describe(d).expect("a code");
        let (limit, before) = (sets.len() as u32, random.bytes(packed_length(code.k)));
        let answer = check(d, channel, limit, &before);
        let (trials, _) = trials_made(&answer).expect("a first trial");
        let (number, _) = HALF.run(d, channel, limit, &before);
        met.count(code.n, number, &sets[1..trials]);
    }
}
