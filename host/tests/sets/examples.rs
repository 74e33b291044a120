//! Small examples by hand, and every small vector.

use host::reference::description::{record, with_start};
use host::testing::examples::{Example, EXAMPLES};
use host::testing::samples;
use host::testing::sets::{Lent, Pair, FULL, HALF, RESTARTED};

use crate::outcomes::Outcomes;

/// The number and the payload that an example has by hand.
fn expected(example: &Example, steps: usize) -> (u64, Vec<u8>) {
    let refusal = if example.payload.is_some() { 0 } else { 16 };
    let number = refusal + (example.trials() << 8) + (steps << 32);
    (number as u64, vec![example.payload.unwrap_or(0xEE)])
}

#[test]
fn examples_by_hand() {
    for example in &EXAMPLES {
        let channel = example.channel();
        let run = |by: Pair| {
            let of = Lent {
                description: example.description,
                channel: &channel,
                most_flips: example.most_flips,
                limit: example.limit,
            };
            by.run(of, &[0xEE])
        };
        let full = expected(example, 24 * example.trials());
        assert_eq!(run(FULL), full, "{example:?}");
        let half = expected(example, example.half_steps());
        assert_eq!(run(HALF), half, "{example:?}");
        let restarted = expected(example, example.restarted_steps);
        assert_eq!(run(RESTARTED), restarted, "{example:?}");
    }
}

/// Nothing but zeros and ties, under checks of two and of three bits of both kinds.
#[test]
fn every_small_vector() {
    let mut outcomes = Outcomes::default();
    for (r, polynomial, start) in [(2, 0b11, None), (3, 0b011, None), (3, 0b101, Some(6))] {
        let d = record(3, r, polynomial, &samples::mask_with(8, &[3, 5, 6, 7]));
        let d = start.map_or(d.clone(), |start| with_start(&d, start));
        for channel in samples::small_vectors() {
            for (most_flips, limit) in [(1, 5), (2, 12), (3, 16)] {
                let of = Lent {
                    description: &d,
                    channel: &channel,
                    most_flips,
                    limit,
                };
                outcomes.check(of, &[0xEE]);
            }
        }
    }
    println!("{outcomes:?}");
    outcomes.accept_at_least([1_000; 4]);
    assert!(outcomes.used_up >= 200, "{outcomes:?}");
}
