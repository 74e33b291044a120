//! Hearings with the largest T, where trials and steps are many.

use host::reference::description::record;
use host::testing::cab::Cab;
use host::testing::faulty::Faulty;
use host::testing::hearing::{refusal, Call, RESTARTED};
use host::testing::random::Random;
use host::testing::samples;

use crate::cabs::heard;

/// A code with half of its indices for information, and a check of r bits.
fn cab(random: &mut Random, n: usize, r: usize) -> Cab {
    let mask = samples::useful_mask(1 << n, 1 << (n - 1));
    let d = record(n, r, samples::polynomial(random, r), &mask);
    let d = samples::either_kind(random, d);
    Cab::new(random, d)
}

/// The numbers of restarted decoding where noise is held, and of a preview of more of it.
fn of_noise(random: &mut Random, n: usize, r: usize) -> [u64; 2] {
    let cab = cab(random, n, r);
    let [held, channel] = [(); 2].map(|_| samples::channel(random, 1 << n, 31));
    let lent = Faulty {
        channel,
        limit: cab.code().information() as u32 + 1,
        ..cab.lent(random)
    };
    let decode = Call::Decode(RESTARTED, lent.limit, lent.before.clone());
    let mut state = heard(&cab, &[&held]);
    [decode, Call::preview(&lent)].map(|call| call.make(&mut state))
}

/// 16 carries a T that takes more than a byte, and steps that take more than two.
#[test]
fn all_trials_fail() {
    let mut random = Random::new(1);
    for n in 9..=12 {
        let largest = (1 << (n - 1)) + 1;
        for number in of_noise(&mut random, n, 16) {
            println!("n = {n}: {} steps", number >> 32);
            assert_eq!(number % (1 << 32), 16 + (largest << 8), "n = {n}");
            assert!(number >> 32 > 1 << 18, "n = {n}");
        }
    }
}

/// A check of nine bits passes by chance, now and then after trial 255.
#[test]
fn late_trials_pass() {
    let mut random = Random::new(2);
    let mut late = [0; 2];
    for _ in 0..30 {
        let numbers = of_noise(&mut random, 10, 9);
        for (late, number) in late.iter_mut().zip(numbers) {
            let is_late = refusal(number) == 0 && (number >> 8) % (1 << 24) > 255;
            *late += usize::from(is_late);
        }
    }
    println!("after trial 255: {late:?}");
    assert!(late.iter().all(|&late| late >= 4), "{late:?}");
}
