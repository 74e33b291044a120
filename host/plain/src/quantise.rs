//! The sample quantiser.

/// Writes a byte for each sample; answers the peak, or positive zero with a refusal. The numbers
/// become the refusal or 0, then the clipped count, a refusal's first index, or 0.
pub fn quantise(scale: f32, samples: &[f32], output: &mut [u8], numbers: &mut [u64; 2]) -> f32 {
    if let Some(refused) = refusal_of_samples(scale, samples, output.len()) {
        *numbers = refused;
        return 0.0;
    }
    let mut peak = 0.0;
    let mut clipped = 0u64;
    for (y, byte) in samples.iter().zip(output) {
        let p = scale * y;
        let magnitude = p.abs();
        let nearest = nearest_quarters(magnitude);
        let level = nearest.min(31);
        let signed = if p < 0.0 { level.wrapping_neg() } else { level };
        *byte = signed as u8;
        clipped = clipped.wrapping_add(u64::from(nearest == 32));
        peak = if magnitude > peak { magnitude } else { peak };
    }
    *numbers = [0, clipped];
    peak
}

/// The whole number nearest to four times a magnitude, halves up, or 32 where it is larger.
fn nearest_quarters(magnitude: f32) -> i32 {
    let quarters = 4.0 * f64::from(magnitude);
    if quarters < 32.0 {
        // SAFETY: the number lies between 0 and 33.
        unsafe { (quarters + 0.5).to_int_unchecked() }
    } else {
        32
    }
}

/// Refusals 20 to 22, with the first index.
fn refusal_of_samples(scale: f32, samples: &[f32], room: usize) -> Option<[u64; 2]> {
    if samples.len() != room {
        return Some([20, 0]);
    }
    if !scale.is_finite() || scale <= 0.0 {
        return Some([21, 0]);
    }
    let index = samples.iter().position(|y| y.is_nan())?;
    Some([22, index as u64])
}
