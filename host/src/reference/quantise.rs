//! The sample quantiser: document 01, "Sample quantiser". Each operation on floats here is exact,
//! but for the one rounding that the paper names.

use crate::reference::refusal::Refusal;

/// An accepted answer: the largest magnitude of p, and how many values were clipped.
#[derive(Clone, Copy, Debug)]
pub struct Quantised {
    pub peak: f32,
    pub clipped: usize,
}

/// The largest level.
const LIMIT: f64 = 31.0;

/// Writes a byte for each sample; a refusal writes nothing.
pub fn quantise(scale: f32, samples: &[f32], output: &mut [u8]) -> Result<Quantised, Refusal> {
    if samples.len() != output.len() {
        return Err(Refusal::Number(20));
    }
    if !scale.is_finite() || scale <= 0.0 {
        return Err(Refusal::Number(21));
    }
    if let Some(index) = samples.iter().position(|y| y.is_nan()) {
        return Err(Refusal::At(22, index));
    }
    let mut answer = Quantised {
        peak: 0.0,
        clipped: 0,
    };
    for (y, byte) in samples.iter().zip(output) {
        let p = product(scale, *y);
        let whole = nearest_whole(p);
        *byte = whole.clamp(-LIMIT, LIMIT) as i8 as u8;
        answer.clipped += usize::from(whole.abs() > LIMIT);
        answer.peak = answer.peak.max(p.abs());
    }
    Ok(answer)
}

/// p: scale · y rounded a single time. f64 has the 48 bits and the exponent of a product of two
/// f32, so that the product is exact; `as` rounds it to the nearest f32, a tie to the even one, and
/// to infinity where it is too large. It is a number, for the scale is neither zero nor infinite.
fn product(scale: f32, y: f32) -> f32 {
    (f64::from(scale) * f64::from(y)) as f32
}

/// The whole number nearest to 4p, halves away from zero as `round` takes them; infinite where p
/// is. Four times an f32 is exact in f64.
fn nearest_whole(p: f32) -> f64 {
    (4.0 * f64::from(p)).round()
}

#[cfg(test)]
mod tests {
    use super::*;

    /// The bytes as levels, the bits of the peak, and the clipped count.
    fn accepted(scale: f32, samples: &[f32]) -> (Vec<i8>, u32, usize) {
        let mut output = vec![0xEE; samples.len()];
        let answer = quantise(scale, samples, &mut output).expect("an accepted answer");
        let levels = output.iter().map(|&byte| byte as i8).collect();
        (levels, answer.peak.to_bits(), answer.clipped)
    }

    fn refused(scale: f32, samples: &[f32], length: usize, refusal: Refusal) {
        let mut output = vec![0xEE; length];
        let answer = quantise(scale, samples, &mut output);
        assert_eq!(answer.err(), Some(refusal), "{scale} {samples:?}");
        assert_eq!(output, vec![0xEE; length]);
    }

    #[test]
    fn rows_of_the_paper() {
        let samples = [0.125, -0.125, 0.375, 7.8125, 7.875];
        let (levels, peak, clipped) = accepted(1.0, &samples);
        assert_eq!(levels, [1, -1, 2, 31, 31]);
        assert_eq!(peak, 7.875f32.to_bits());
        assert_eq!(clipped, 1);
        assert_eq!(accepted(1.0, &[7.8125]).2, 0);
        assert_eq!(accepted(1.0, &[7.875]).2, 1);
    }

    #[test]
    fn no_samples() {
        assert_eq!(accepted(1.0, &[]), (vec![], 0, 0));
    }

    #[test]
    fn halves_go_away_from_zero() {
        for whole in 0..31u8 {
            let half = (f32::from(whole) + 0.5) / 4.0;
            let level = whole as i8 + 1;
            assert_eq!(accepted(1.0, &[half, -half]).0, [level, -level]);
            let below = half.next_down();
            assert_eq!(accepted(1.0, &[below, -below]).0, [level - 1, 1 - level]);
        }
    }

    #[test]
    fn clipping_begins_at_31_and_a_half() {
        for (y, clipped) in [
            (7.75f32, 0),
            (7.875f32.next_down(), 0),
            (7.875, 1),
            (8.0, 1),
            (f32::MAX, 1),
            (f32::INFINITY, 1),
        ] {
            let answer = accepted(1.0, &[y, -y]);
            assert_eq!(answer, (vec![31, -31], y.to_bits(), 2 * clipped), "{y}");
        }
    }

    #[test]
    fn zeros_and_the_least_floats() {
        let least = f32::from_bits(1);
        assert_eq!(accepted(1.0, &[0.0, -0.0]), (vec![0, 0], 0, 0));
        assert_eq!(accepted(0.5, &[-least]), (vec![0], 0, 0));
        assert_eq!(accepted(0.5f32.next_up(), &[least]), (vec![0], 1, 0));
        assert_eq!(accepted(1.5, &[least]), (vec![0], 2, 0), "a tie to even");
        assert_eq!(accepted(least, &[least, -f32::MAX]).0, [0, 0]);
    }

    #[test]
    fn overflow_is_infinite_and_clipped() {
        let infinite = f32::INFINITY.to_bits();
        let answer = accepted(2.0, &[f32::MAX, -f32::MAX, 0.0]);
        assert_eq!(answer, (vec![31, -31, 0], infinite, 2));
        let answer = accepted(f32::from_bits(1), &[f32::NEG_INFINITY]);
        assert_eq!(answer, (vec![-31], infinite, 1));
    }

    #[test]
    fn the_peak_is_the_largest_magnitude() {
        let answer = accepted(2.0, &[0.25, -1.5, 1.0]);
        assert_eq!(answer, (vec![2, -12, 8], 3.0f32.to_bits(), 0));
    }

    #[test]
    fn refusals() {
        let nan = f32::NAN;
        refused(1.0, &[0.0], 0, Refusal::Number(20));
        refused(1.0, &[], 1, Refusal::Number(20));
        for scale in [0.0, -0.0, -1.0, f32::INFINITY, f32::NEG_INFINITY, nan, -nan] {
            refused(scale, &[0.0], 1, Refusal::Number(21));
            refused(scale, &[], 0, Refusal::Number(21));
        }
        refused(1.0, &[nan, 0.0, nan], 3, Refusal::At(22, 0));
        refused(1.0, &[0.0, f32::INFINITY, -nan, nan], 4, Refusal::At(22, 2));
        refused(
            1.0,
            &[0.0, 0.0, f32::from_bits(0x7F80_0001)],
            3,
            Refusal::At(22, 2),
        );
    }

    #[test]
    fn the_first_fault_decides() {
        refused(0.0, &[f32::NAN], 2, Refusal::Number(20));
        refused(0.0, &[f32::NAN], 1, Refusal::Number(21));
        refused(1.0, &[f32::NAN], 1, Refusal::At(22, 0));
    }
}
