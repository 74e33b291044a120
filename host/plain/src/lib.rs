//! The codec in plain Rust, written for speed: the calls and answers of `library` by the same
//! algorithm, a recursion on i32 values with one bit per byte, and the quantiser. The benchmark
//! compares with it. It is a package of its own so that it is compiled as Rust's release is.

mod answer;
mod code;
mod decode;
mod encode;
mod hearing;
mod message;
mod pass;
mod quantise;
mod resume;
mod sets;

pub use decode::{decode_full, decode_half, decode_restarted};
pub use encode::encode;
pub use hearing::{
    hearing_add, hearing_clear, hearing_decode_full, hearing_decode_restarted, hearing_open,
    hearing_preview,
};
pub use quantise::quantise;
pub use resume::resume;
pub use sets::{decode_sets_full, decode_sets_half, decode_sets_restarted};

/// The largest n and N.
const LARGEST_N: u8 = 12;
const SIZE: usize = 1 << LARGEST_N;
