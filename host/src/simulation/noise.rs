//! Noise of the standard normal distribution.

use std::f64::consts::TAU;

use crate::testing::random::Random;

/// Fills a list with numbers of mean 0 and variance 1, two at a time by Box and Muller.
pub fn fill_normal(random: &mut Random, numbers: &mut [f64]) {
    for pair in numbers.chunks_mut(2) {
        let radius = (-2.0 * random.fraction().ln()).sqrt();
        let (sine, cosine) = (TAU * random.fraction()).sin_cos();
        for (number, coordinate) in pair.iter_mut().zip([cosine, sine]) {
            *number = radius * coordinate;
        }
    }
}

#[cfg(test)]
mod tests {
    use super::*;

    fn mean(terms: impl Iterator<Item = f64>) -> f64 {
        let (sum, count) = terms.fold((0.0, 0), |(sum, count), term| (sum + term, count + 1));
        sum / f64::from(count)
    }

    #[test]
    fn moments_of_the_standard_normal_distribution() {
        let mut numbers = vec![0.0; 200_000];
        fill_normal(&mut Random::new(1), &mut numbers);
        let moment = |power| mean(numbers.iter().map(|x: &f64| x.powi(power)));
        assert!(moment(1).abs() < 0.01, "{}", moment(1));
        assert!((moment(2) - 1.0).abs() < 0.02, "{}", moment(2));
        assert!((moment(4) - 3.0).abs() < 0.1, "{}", moment(4));
        let neighbours = mean(numbers.windows(2).map(|pair| pair[0] * pair[1]));
        assert!(neighbours.abs() < 0.01, "{neighbours}");
    }

    #[test]
    fn an_odd_count_is_filled() {
        let mut numbers = [9.0; 3];
        fill_normal(&mut Random::new(2), &mut numbers);
        assert!(numbers.iter().all(|&x| x != 9.0), "{numbers:?}");
    }
}
