//! Calls over the C boundary, of the library's functions and of others with the same prototypes.
//!
//! # Safety
//! A function must read and write only the bytes whose pointers and lengths it gets, and keep no
//! pointer. Each pointer goes with the length of the slice that it comes from.

pub type Encode = unsafe extern "C" fn(*const u8, usize, *const u8, usize, *mut u8, usize) -> u64;
pub type Resume = unsafe extern "C" fn(
    *const u8,
    usize,
    *const u8,
    usize,
    *const u8,
    usize,
    *mut u8,
    usize,
) -> u64;
pub type Decode =
    unsafe extern "C" fn(*const u8, usize, *const u8, usize, u32, *mut u8, usize) -> u64;
pub type DecodeSets =
    unsafe extern "C" fn(*const u8, usize, *const u8, usize, u32, u32, *mut u8, usize) -> u64;
pub type Quantise = unsafe extern "C" fn(f32, *const f32, usize, *mut u8, usize, *mut u64) -> f32;

pub type Open = unsafe extern "C" fn(*const u8, usize, *mut u8, usize) -> u64;
pub type Add = unsafe extern "C" fn(*mut u8, usize, *const u8, usize) -> u64;
pub type Clear = unsafe extern "C" fn(*mut u8, usize) -> u64;
pub type DecodeHearing = unsafe extern "C" fn(*const u8, usize, u32, *mut u8, usize) -> u64;

/// Writes a packed codeword; the answer is as in `number::encode_number`.
pub unsafe fn encode(by: Encode, d: &[u8], payload: &[u8], codeword: &mut [u8]) -> u64 {
    by(
        d.as_ptr(),
        d.len(),
        payload.as_ptr(),
        payload.len(),
        codeword.as_mut_ptr(),
        codeword.len(),
    )
}

/// Writes all N bits, one per byte; the answer is as in `number::resume_number`.
pub unsafe fn resume(by: Resume, d: &[u8], channel: &[u8], prefix: &[u8], bits: &mut [u8]) -> u64 {
    by(
        d.as_ptr(),
        d.len(),
        channel.as_ptr(),
        channel.len(),
        prefix.as_ptr(),
        prefix.len(),
        bits.as_mut_ptr(),
        bits.len(),
    )
}

/// Writes the packed payload; the answer is as in `number::decode_number`. Preview has a state in the
/// place of the description.
pub unsafe fn decode(by: Decode, d: &[u8], channel: &[u8], limit: u32, payload: &mut [u8]) -> u64 {
    by(
        d.as_ptr(),
        d.len(),
        channel.as_ptr(),
        channel.len(),
        limit,
        payload.as_mut_ptr(),
        payload.len(),
    )
}

/// The same with flip sets.
pub unsafe fn decode_sets(
    by: DecodeSets,
    d: &[u8],
    channel: &[u8],
    most_flips: u32,
    limit: u32,
    payload: &mut [u8],
) -> u64 {
    by(
        d.as_ptr(),
        d.len(),
        channel.as_ptr(),
        channel.len(),
        most_flips,
        limit,
        payload.as_mut_ptr(),
        payload.len(),
    )
}

/// Writes a byte for each sample. Answers the peak, or positive zero with a refusal; the numbers
/// become the refusal or 0, then the clipped count, a refusal's first index, or 0.
pub unsafe fn quantise(
    by: Quantise,
    scale: f32,
    samples: &[f32],
    output: &mut [u8],
    numbers: &mut [u64; 2],
) -> f32 {
    by(
        scale,
        samples.as_ptr(),
        samples.len(),
        output.as_mut_ptr(),
        output.len(),
        numbers.as_mut_ptr(),
    )
}

/// Opens a hearing in a state; the answer is as in `number::hearing_number`.
pub unsafe fn open(by: Open, d: &[u8], state: &mut [u8]) -> u64 {
    by(d.as_ptr(), d.len(), state.as_mut_ptr(), state.len())
}

/// Adds a vector to a state; the answer is as in `number::hearing_number`.
pub unsafe fn add(by: Add, state: &mut [u8], channel: &[u8]) -> u64 {
    by(
        state.as_mut_ptr(),
        state.len(),
        channel.as_ptr(),
        channel.len(),
    )
}

/// Clears a state; the answer is as in `number::hearing_number`.
pub unsafe fn clear(by: Clear, state: &mut [u8]) -> u64 {
    by(state.as_mut_ptr(), state.len())
}

/// Decodes a state and writes the packed payload; the answer is as in `number::decode_number`.
pub unsafe fn decode_hearing(
    by: DecodeHearing,
    state: &[u8],
    limit: u32,
    payload: &mut [u8],
) -> u64 {
    by(
        state.as_ptr(),
        state.len(),
        limit,
        payload.as_mut_ptr(),
        payload.len(),
    )
}
