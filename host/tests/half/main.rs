//! Half restart: flips at and beside the middle of the code, each with its exact steps, and the three
//! decoders beside each other.

mod agreement;
mod flips;
mod met;
mod middle;
mod sets;
