//! The export `probe_quantise`.

use crate::testing::library::call;

extern "C" {
    fn probe_quantise(
        scale: f32,
        samples: *const f32,
        samples_len: usize,
        output: *mut u8,
        output_len: usize,
        numbers: *mut u64,
    ) -> f32;
}

/// Writes a byte for each sample. Answers the peak, or positive zero with a refusal; the numbers
/// become the refusal or 0, then the clipped count, a refusal's first index, or 0.
pub fn quantise(scale: f32, samples: &[f32], output: &mut [u8], numbers: &mut [u64; 2]) -> f32 {
    unsafe { call::quantise(probe_quantise, scale, samples, output, numbers) }
}
