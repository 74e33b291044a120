//! The library's decoders, held to the reference and to each other on more than 450,000 calls, more
//! than 240,000 of them under descriptions of kind 4.

mod calls;
mod examples;
mod frames;
mod limits;
mod refusals;
