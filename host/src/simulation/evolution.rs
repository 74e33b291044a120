//! Information sets by density evolution for Gaussian noise. The method of Tal and Vardy bounds the
//! same from both sides.
//!
//! Where zeros were sent, a log-likelihood ratio of magnitude a is negative with probability
//! 1/(1 + e^a), at every node. So the probability of each magnitude says all of a value; magnitudes
//! are taken in steps.

use crate::simulation::construction::most_reliable;

const STEP: f64 = 0.05;

/// The steps of the largest magnitude; what lies above is taken as that.
const LEVELS: usize = 600;

/// The probability of each magnitude.
type Density = Vec<f64>;

/// A mask of 2^n indices whose `ones` most reliable are information indices. `mean` is that of the
/// channel's log-likelihood ratios where zeros were sent.
pub fn evolved_set(n: usize, ones: usize, mean: f64) -> Vec<bool> {
    let errors = Evolution::new().leaf_errors(n, &channel(mean));
    let falling: Vec<f64> = errors.iter().map(|error| -error).collect();
    most_reliable(ones, &falling)
}

/// The magnitudes of a normal value whose variance is twice its mean.
fn channel(mean: f64) -> Density {
    let height = |x: f64| (-(x - mean).powi(2) / (4.0 * mean)).exp();
    let both = |level: usize| {
        let magnitude = level as f64 * STEP;
        let zero_once = if level == 0 { 0.5 } else { 1.0 };
        zero_once * (height(magnitude) + height(-magnitude))
    };
    let heights: Vec<f64> = (0..=LEVELS).map(both).collect();
    let sum: f64 = heights.iter().sum();
    heights.iter().map(|height| height / sum).collect()
}

/// What is the same at each node: for a magnitude the probability of a wrong sign, and for a pair
/// with the smaller second, the magnitude of the left half, in steps.
struct Evolution {
    wrong: Vec<f64>,
    left: Vec<Vec<f64>>,
}

impl Evolution {
    fn new() -> Self {
        let magnitude = |level: usize| level as f64 * STEP;
        let left = |a: usize| (0..=a).map(move |b| boxplus(magnitude(a), magnitude(b)) / STEP);
        Evolution {
            wrong: (0..=LEVELS)
                .map(|level| 1.0 / (1.0 + magnitude(level).exp()))
                .collect(),
            left: (0..=LEVELS).map(|a| left(a).collect()).collect(),
        }
    }

    /// The probability of a wrong decision at each leaf below a node.
    fn leaf_errors(&self, layer: usize, node: &Density) -> Vec<f64> {
        if layer == 0 {
            let errors = node.iter().zip(&self.wrong);
            return vec![errors.map(|(part, wrong)| part * wrong).sum()];
        }
        let halves = [self.left_half(node), self.right_half(node)];
        let below = halves.iter().map(|half| self.leaf_errors(layer - 1, half));
        below.collect::<Vec<_>>().concat()
    }

    /// Magnitudes between two steps count for both, for the nearer one more.
    fn left_half(&self, node: &Density) -> Density {
        let mut half = vec![0.0; LEVELS + 2];
        for_pairs(node, |a, b, part| {
            let level = self.left[a][b];
            let (below, above) = (level as usize, level.fract());
            half[below] += part * (1.0 - above);
            half[below + 1] += part * above;
        });
        half.truncate(LEVELS + 1);
        half
    }

    /// Equal signs add magnitudes, others subtract them.
    fn right_half(&self, node: &Density) -> Density {
        let mut half = vec![0.0; LEVELS + 1];
        for_pairs(node, |a, b, part| {
            let (one, other) = (self.wrong[a], self.wrong[b]);
            let differ = part * (one + other - 2.0 * one * other);
            half[(a + b).min(LEVELS)] += part - differ;
            half[a - b] += differ;
        });
        half
    }
}

/// The magnitude of the left half for magnitudes a ≥ b: 2 artanh(tanh(a/2) tanh(b/2)).
fn boxplus(a: f64, b: f64) -> f64 {
    (b + (-a - b).exp().ln_1p() - (b - a).exp().ln_1p()).max(0.0)
}

/// Calls with each pair of levels, the smaller second, and its probability in any order.
fn for_pairs(node: &Density, mut of_pair: impl FnMut(usize, usize, f64)) {
    for (a, first) in node.iter().enumerate().filter(|(_, part)| **part > 0.0) {
        for (b, second) in node[..a].iter().enumerate() {
            of_pair(a, b, 2.0 * first * second);
        }
        of_pair(a, a, first * first);
    }
}

#[cfg(test)]
mod tests {
    use super::*;
    use crate::simulation::construction::information_set;
    use crate::simulation::{ratio, CHECK, DEPTH, SETTINGS};

    #[test]
    fn the_set_of_the_papers_example() {
        let mask = evolved_set(3, 4, 2.0);
        let indices: Vec<usize> = (0..8).filter(|&index| mask[index]).collect();
        assert_eq!(indices, [3, 5, 6, 7]);
    }

    #[test]
    fn probabilities_sum_to_one() {
        let evolution = Evolution::new();
        let node = channel(1.5);
        for half in [evolution.left_half(&node), evolution.right_half(&node)] {
            assert!((half.iter().sum::<f64>() - 1.0).abs() < 1e-12);
        }
    }

    /// A decision is wrong with p = Q(√(mean/2)); after f with (1 − (1 − 2p)²)/2, after g with twice
    /// the mean.
    #[test]
    fn errors_of_one_layer() {
        let evolution = Evolution::new();
        let node = channel(2.0);
        let once = evolution.leaf_errors(0, &node)[0];
        assert!((once - 0.158_655).abs() < 1e-4, "{once}");
        let [left, right] = evolution.leaf_errors(1, &node)[..] else {
            panic!("two leaves");
        };
        let expected = (1.0 - (1.0 - 2.0 * once).powi(2)) / 2.0;
        assert!((left - expected).abs() < 1e-4, "{left}");
        assert!((right - 0.078_650).abs() < 1e-4, "{right}");
    }

    /// By the Gaussian approximation few indices are others.
    #[test]
    fn sets_of_the_papers_codes() {
        let exchanged = SETTINGS.map(|setting| {
            let (ones, mean) = (setting.k + CHECK.0, ratio(setting.k, setting.design));
            let [approximated, evolved] =
                [information_set, evolved_set].map(|set| set(DEPTH, ones, mean));
            let only = |of: &[bool], other: &[bool]| -> Vec<usize> {
                let indices = 0..of.len();
                indices
                    .filter(|&index| of[index] && !other[index])
                    .collect()
            };
            (only(&approximated, &evolved), only(&evolved, &approximated))
        });
        let expected = [
            (vec![502, 992], vec![734, 747]),
            (vec![486], vec![623]),
            (vec![362], vec![543]),
        ];
        assert_eq!(exchanged, expected);
    }
}
