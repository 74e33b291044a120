//! Information sets for Gaussian noise. A code's construction is no part of the codec: a mask may
//! come from anywhere.
//!
//! The Gaussian approximation of density evolution: a value at a node is taken as normal, with a
//! variance of twice its mean, so that a mean says how reliable a node is. The right half of a node
//! has twice its mean; in the left half, 1 − φ is squared.

use std::f64::consts::PI;

use crate::testing::samples::mask_with;

/// A mask of 2^n indices whose `ones` most reliable are information indices. `mean` is that of the
/// channel's log-likelihood ratios where zeros were sent.
pub fn information_set(n: usize, ones: usize, mean: f64) -> Vec<bool> {
    most_reliable(ones, &leaf_means(n, mean))
}

/// A mask of the indices with the `ones` largest numbers; of equal ones the higher indices.
pub fn most_reliable(ones: usize, numbers: &[f64]) -> Vec<bool> {
    let mut indices: Vec<usize> = (0..numbers.len()).rev().collect();
    indices.sort_by(|&a, &b| numbers[b].total_cmp(&numbers[a]));
    mask_with(numbers.len(), &indices[..ones])
}

/// The mean at each leaf.
fn leaf_means(n: usize, mean: f64) -> Vec<f64> {
    let halves = |&mean: &f64| [left_mean(mean), 2.0 * mean];
    (0..n).fold(vec![mean], |means, _| {
        means.iter().flat_map(halves).collect()
    })
}

/// The mean m' with 1 − φ(m') = (1 − φ(m))², by halving an interval. It is at most m.
fn left_mean(mean: f64) -> f64 {
    let goal = log_phi(mean) + (2.0 - log_phi(mean).exp()).ln();
    let (mut low, mut high) = (0.0, mean);
    for _ in 0..60 {
        let middle = (low + high) / 2.0;
        if log_phi(middle) > goal {
            low = middle;
        } else {
            high = middle;
        }
    }
    (low + high) / 2.0
}

/// The logarithm of φ(m) = 1 − E tanh(v/2), v being normal with mean m and variance 2m: the
/// approximations of Ha, Kim and McLaughlin for small means, of Chung, Richardson and Urbanke for
/// others. It falls from 0 as m grows.
fn log_phi(mean: f64) -> f64 {
    if mean < 0.867_861 {
        (0.0564 * mean - 0.4856) * mean
    } else if mean < 10.0 {
        0.0218 - 0.4527 * mean.powf(0.86)
    } else {
        (PI / mean).ln() / 2.0 - mean / 4.0 + (1.0 - 10.0 / (7.0 * mean)).ln()
    }
}

#[cfg(test)]
mod tests {
    use super::*;
    use crate::simulation::DEPTH;

    const SIZE: usize = 1 << DEPTH;

    #[test]
    fn a_set_has_its_size_and_the_best_indices() {
        for (ones, mean) in [(144, 0.67), (272, 1.33), (528, 3.56)] {
            let mask = information_set(DEPTH, ones, mean);
            assert_eq!(mask.len(), SIZE);
            assert_eq!(mask.iter().filter(|&&one| one).count(), ones);
            assert!(mask[SIZE - 1] && !mask[0]);
        }
    }

    /// An index with more one bits at the same places is never less reliable.
    #[test]
    fn a_set_is_closed_under_setting_bits() {
        for (ones, mean) in [(144, 0.67), (272, 1.33), (528, 3.56)] {
            let mask = information_set(DEPTH, ones, mean);
            for index in (0..SIZE).filter(|&index| mask[index]) {
                assert!((0..DEPTH).all(|bit| mask[index | 1 << bit]), "{index}");
            }
        }
    }

    #[test]
    fn sets_grow_with_the_size() {
        let small = information_set(7, 30, 1.0);
        let large = information_set(7, 31, 1.0);
        let added = (0..small.len()).filter(|&index| small[index] != large[index]);
        assert_eq!(added.count(), 1);
        assert!((0..small.len()).all(|index| large[index] || !small[index]));
    }

    #[test]
    fn the_set_of_the_papers_example() {
        let mask = information_set(3, 4, 2.0);
        let indices: Vec<usize> = (0..8).filter(|&index| mask[index]).collect();
        assert_eq!(indices, [3, 5, 6, 7]);
    }

    /// Means of a node of two values lie on both sides of its own.
    #[test]
    fn one_half_is_worse_and_one_is_better() {
        for mean in [0.01, 0.5, 1.0, 5.0, 9.9, 10.1, 50.0, 3000.0] {
            let left = left_mean(mean);
            assert!(0.0 < left && left < mean, "{left}");
        }
    }
}
