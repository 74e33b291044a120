//! The library's decoders with flip sets, held to the reference, which keeps every untried set, and to
//! each other on more than 450,000 calls.

mod examples;
mod frames;
mod limits;
mod outcomes;
mod refusals;
