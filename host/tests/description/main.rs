//! The library's reading of descriptions, held to the reference on more than 400,000 inputs, more
//! than 200,000 of which say kind 4.

mod calls;
mod fields;
mod lengths;
mod rows;
