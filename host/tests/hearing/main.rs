//! The library's hearings in more than 1,800,000 calls, most of them held to the reference: lists of
//! calls on one state, decoding of what they leave, previews, refusals, damaged states, states that are
//! moved.

mod cabs;
mod damaged;
mod decoding;
mod examples;
mod full;
mod lists;
mod moved;
mod preview;
mod refusals;
mod trials;
