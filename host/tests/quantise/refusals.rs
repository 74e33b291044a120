//! Refused calls.

use host::reference::sizes::LONGEST;
use host::testing::random::Random;

use crate::calls::{check, refused};
use crate::floats::{any_nan, any_samples, right_scale, wrong_scales, NOT_A_NUMBER};

#[test]
fn samples_that_are_no_numbers() {
    let mut random = Random::new(9);
    for count in [1, 2, 3, 4, 7, 8, 9, 16, 17, 33, 100, LONGEST] {
        for bits in NOT_A_NUMBER {
            refused_at_places(&mut random, count, f32::from_bits(bits));
        }
    }
}

/// One sample of `count` that is no number, and then more of them after it, which change nothing.
fn refused_at_places(random: &mut Random, count: usize, nan: f32) {
    for place in [0, count / 2, count - 1, random.below(count)] {
        let scale = right_scale(random);
        let mut samples = any_samples(random, count);
        samples[place] = nan;
        refused(scale, &samples, count, [22, place as u64]);
        put_more(random, &mut samples[place + 1..]);
        refused(scale, &samples, count, [22, place as u64]);
    }
}

/// Makes about half of these samples no numbers.
fn put_more(random: &mut Random, samples: &mut [f32]) {
    for y in samples {
        if random.bit() {
            *y = any_nan(random);
        }
    }
}

#[test]
fn late_samples_of_a_long_list() {
    let count = 100_000;
    let mut samples = vec![8.0; count];
    for place in [count - 1, 65_536, 65_535] {
        samples[place] = f32::NAN;
        refused(1.0, &samples, count, [22, place as u64]);
    }
}

#[test]
fn lengths_that_differ() {
    let mut random = Random::new(10);
    for count in [0, 1, 2, 3, 7, 8, 9, 63, 64, 65, 255, 256, 257, LONGEST] {
        let samples = any_samples(&mut random, count);
        let near = count.saturating_sub(2)..count + 3;
        let far = [0, count / 2, 2 * count, count + 256, count + 65_536];
        for length in near.chain(far) {
            if length != count {
                refused(1.0, &samples, length, [20, 0]);
            }
        }
    }
}

#[test]
fn refused_scales() {
    let mut random = Random::new(11);
    for scale in wrong_scales() {
        for count in [0, 1, 2, 8, 33, 1_000] {
            refused(scale, &any_samples(&mut random, count), count, [21, 0]);
            refused(scale, &vec![0.0; count], count, [21, 0]);
        }
    }
}

#[test]
fn the_first_fault_decides() {
    for bits in NOT_A_NUMBER {
        let y = f32::from_bits(bits);
        for scale in wrong_scales() {
            refused(scale, &[y, 1.0], 1, [20, 0]);
            refused(scale, &[y], 2, [20, 0]);
            refused(scale, &[], 1, [20, 0]);
            refused(scale, &[1.0, y], 2, [21, 0]);
        }
        refused(1.0, &[y, 1.0], 1, [20, 0]);
        refused(1.0, &[1.0, y], 2, [22, 1]);
    }
}

/// Faults of every kind at once, so that their order decides.
#[test]
fn several_faults() {
    let mut random = Random::new(12);
    let wrong = wrong_scales();
    let mut met = [0; 23];
    for _ in 0..20_000 {
        let count = random.below(40);
        let mut scale = right_scale(&mut random);
        let mut samples = any_samples(&mut random, count);
        let mut length = count;
        if random.below(3) == 0 {
            scale = wrong[random.below(wrong.len())];
        }
        if random.below(3) == 0 {
            length = random.below(40);
        }
        for y in &mut samples {
            if random.below(20) == 0 {
                *y = any_nan(&mut random);
            }
        }
        let (_, [refusal, _], _) = check(scale, &samples, length);
        met[refusal as usize] += 1;
    }
    let possible = [0, 20, 21, 22].map(|number| met[number]);
    assert!(possible.iter().all(|&count| count > 1_000), "{met:?}");
}
