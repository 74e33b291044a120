//! The library's quantiser, held to the reference on more than five million samples.

mod calls;
mod floats;
mod levels;
mod refusals;
