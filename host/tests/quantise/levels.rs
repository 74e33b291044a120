//! Accepted calls: levels, peak and clipped count.

use host::reference::sizes::LAYERS;
use host::testing::random::Random;

use crate::calls::accepted;
use crate::floats::{
    any_samples, edges, power_of_two, right_scale, right_scales, signed, useful_samples,
};

#[test]
fn rows_of_the_paper() {
    let rows = [
        (0.125f32, 1, 0),
        (-0.125, -1, 0),
        (0.375, 2, 0),
        (7.8125, 31, 0),
        (7.875, 31, 1),
    ];
    for (y, level, clipped) in rows {
        let peak = y.abs().to_bits();
        assert_eq!(accepted(1.0, &[y]), (vec![level], peak, clipped), "{y}");
    }
    let answer = accepted(1.0, &rows.map(|(y, _, _)| y));
    assert_eq!(answer, (vec![1, -1, 2, 31, 31], 7.875f32.to_bits(), 1));
}

/// Each alone, so that its product comes back as the peak; then all at once.
#[test]
fn every_exponent() {
    let edges = edges();
    let scales = right_scales(&mut Random::new(1));
    assert!(scales.len() * edges.len() > 1_500_000);
    for scale in scales {
        for &y in &edges {
            accepted(scale, &[y]);
        }
        accepted(scale, &edges);
    }
}

/// Up to level 33, at scales that multiply exactly.
#[test]
fn halves_and_one_ulp_around() {
    for power in [-120, -20, -2, -1, 0, 1, 2, 20, 120] {
        let (scale, inverse) = (power_of_two(power), power_of_two(-power));
        let is_level = |p: f32, whole: u8| {
            let (level, clipped) = (whole.min(31) as i8, u64::from(whole > 31));
            let y = p * inverse;
            assert_eq!(accepted(scale, &[y]), (vec![level], p.to_bits(), clipped));
            assert_eq!(accepted(scale, &[-y]), (vec![-level], p.to_bits(), clipped));
        };
        for whole in 0..=33 {
            let half = (f32::from(whole) + 0.5) / 4.0;
            is_level(half.next_down(), whole);
            is_level(half, whole + 1);
            is_level(half.next_up(), whole + 1);
        }
        for whole in 1..=33 {
            let p = f32::from(whole) / 4.0;
            is_level(p.next_down(), whole);
            is_level(p, whole);
            is_level(p.next_up(), whole);
        }
    }
}

/// Up to level 33, at scales whose products are rounded, some of them to a half.
#[test]
fn products_rounded_near_halves() {
    let mut random = Random::new(2);
    let random_scales = (0..200).map(|_| random.between(1, 1 << 24) as f32 / power_of_two(16));
    for scale in [3.0, 7.0, 0.1, 0.3, 1.7].into_iter().chain(random_scales) {
        for eighth in 0..=67u8 {
            accepted_near(scale, f32::from(eighth) / 8.0 / scale);
        }
    }
}

/// A sample and the two floats on each side of it, each alone and of both signs.
fn accepted_near(scale: f32, y: f32) {
    let (below, above) = (y.next_down(), y.next_up());
    for y in [below.next_down(), below, y, above, above.next_up()] {
        accepted(scale, &[y]);
        accepted(scale, &[-y]);
    }
}

/// Products of two mantissas of 24 bits next to the largest float and half a unit more: from there
/// on they are infinite.
#[test]
fn the_edge_of_overflow() {
    let half_more = (1u64 << 47) - (1 << 22);
    let (largest, infinite) = (f32::MAX.to_bits(), f32::INFINITY.to_bits());
    let mut met = [0; 2];
    let mut random = Random::new(3);
    let any = (0..20_000).map(|_| random.between(1 << 23, (1 << 24) - 1) as u64);
    // The product of the last two is the half itself.
    for a in any.chain([31 << 19, 1_082_401 << 3]) {
        for b in [half_more / a, half_more / a + 1] {
            let (scale, y) = (a as f32 * power_of_two(41), b as f32 * power_of_two(40));
            let overflows = a * b >= half_more;
            met[usize::from(overflows)] += 1;
            let (levels, peak, clipped) = accepted(scale, &[y]);
            assert_eq!((levels, clipped), (vec![31], 1));
            assert_eq!(peak == infinite, overflows, "{a} · {b}");
            assert!(peak + 4 > largest);
            assert_eq!(accepted(scale, &[-y]), (vec![-31], peak, 1));
        }
    }
    assert!(met.iter().all(|&count| count > 10_000), "{met:?}");
}

#[test]
fn overflow_is_clipped() {
    let infinite = f32::INFINITY.to_bits();
    for (scale, y) in [
        (2.0, power_of_two(127)),
        (2.0, f32::MAX),
        (f32::MAX, f32::MAX),
        (f32::MAX, 1f32.next_up()),
        (1f32.next_up(), f32::MAX),
        (1.0, f32::INFINITY),
        (f32::MAX, f32::INFINITY),
        (f32::from_bits(1), f32::INFINITY),
    ] {
        let answer = accepted(scale, &[0.0, y, -0.0, -y]);
        assert_eq!(answer, (vec![0, 31, 0, -31], infinite, 2), "{scale} · {y}");
    }
    let below = power_of_two(127).next_down();
    let answer = accepted(2.0, &[below, -below]);
    assert_eq!(answer, (vec![31, -31], f32::MAX.to_bits(), 2));
}

/// Halves of the least floats: the nearest ones, ties to even.
#[test]
fn subnormal_products() {
    let small = 0..2_000;
    let around_normal = (1 << 24) - 1_000..(1 << 24) + 1;
    for count in small.chain(around_normal) {
        let y = f32::from_bits(count);
        let half = count / 2 + (count % 2) * (count / 2 % 2);
        assert_eq!(accepted(0.5, &[y]), (vec![0], half, 0));
        assert_eq!(accepted(0.5, &[-y]), (vec![0], half, 0));
    }
    let (least, normal) = (f32::from_bits(1), f32::MIN_POSITIVE);
    for (scale, y, peak) in [
        (least, least, 0),
        (least, 0.5, 0),
        (least, 0.5f32.next_up(), 1),
        (least, 1.5f32.next_down(), 1),
        (least, 1.5, 2),
        (least, f32::MAX, power_of_two(-21).next_down().to_bits()),
        (normal, 1f32.next_down(), normal.to_bits()),
        (normal, normal, 0),
    ] {
        let answer = accepted(scale, &[y, -y]);
        assert_eq!(answer, (vec![0, 0], peak, 0), "{scale:e} · {y:e}");
    }
}

#[test]
fn zeros_of_both_signs() {
    for scale in right_scales(&mut Random::new(4)) {
        assert_eq!(accepted(scale, &[0.0]), (vec![0], 0, 0));
        assert_eq!(accepted(scale, &[-0.0]), (vec![0], 0, 0));
        assert_eq!(accepted(scale, &[-0.0, 0.0, -0.0]), (vec![0; 3], 0, 0));
    }
}

#[test]
fn no_samples() {
    for scale in right_scales(&mut Random::new(5)) {
        assert_eq!(accepted(scale, &[]), (vec![], 0, 0));
    }
}

#[test]
fn the_peak_at_every_place() {
    let mut random = Random::new(6);
    for count in 1..=40 {
        for place in 0..count {
            let mut samples: Vec<f32> = (0..count)
                .map(|_| {
                    let magnitude = random.below(1 << 20) as f32 / power_of_two(20);
                    signed(&mut random, magnitude)
                })
                .collect();
            samples[place] = signed(&mut random, 1.0);
            assert_eq!(accepted(3.0, &samples).1, 3f32.to_bits());
        }
    }
}

#[test]
fn long_lists() {
    let count = 100_000;
    let clipped = accepted(1.0, &vec![-8.0; count]);
    assert_eq!(clipped, (vec![-31; count], 8f32.to_bits(), count as u64));
    let unclipped = accepted(4.0, &vec![-1.9375; count]);
    assert_eq!(unclipped, (vec![-31; count], 7.75f32.to_bits(), 0));
}

#[test]
fn every_short_length() {
    let mut random = Random::new(7);
    for count in 0..=300 {
        for _ in 0..4 {
            let scale = right_scale(&mut random);
            accepted(scale, &any_samples(&mut random, count));
            accepted(scale, &useful_samples(&mut random, count, scale));
        }
    }
}

/// As many samples as a frame has, of each n.
#[test]
fn frames_of_every_length() {
    let mut random = Random::new(13);
    for size in LAYERS.map(|n| 1 << n) {
        for _ in 0..20 {
            let scale = right_scale(&mut random);
            accepted(scale, &any_samples(&mut random, size));
            accepted(scale, &useful_samples(&mut random, size, scale));
        }
    }
}

#[test]
fn random_lists() {
    let mut random = Random::new(8);
    let mut met = [false; 63];
    for _ in 0..20_000 {
        let count = random.below(100);
        let scale = right_scale(&mut random);
        accepted(scale, &any_samples(&mut random, count));
        let scale = random.between(1, 1 << 20) as f32 / power_of_two(10);
        let (levels, _, _) = accepted(scale, &useful_samples(&mut random, count, scale));
        for level in levels {
            met[(level + 31) as usize] = true;
        }
    }
    assert_eq!(met, [true; 63]);
}

/// The floats next to those that are no numbers.
#[test]
fn infinite_samples_are_numbers() {
    for y in [f32::INFINITY, f32::NEG_INFINITY, f32::MAX, f32::MIN] {
        for count in 1..20 {
            let levels = vec![if y > 0.0 { 31 } else { -31 }; count];
            let answer = accepted(1.0, &vec![y; count]);
            assert_eq!(answer, (levels, y.abs().to_bits(), count as u64));
        }
    }
}
