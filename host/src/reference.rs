//! Document 01, and what document 02 adds to it, written from the papers and not from the codec. One
//! module for each of their ideas.

pub mod channel;
pub mod check;
pub mod description;
pub mod encode;
pub mod flip;
pub mod frame;
pub mod hearing;
pub mod number;
pub mod packing;
pub mod pass;
pub mod placing;
pub mod quantise;
pub mod receive;
pub mod refusal;
pub mod restart;
pub mod resume;
pub mod sets;
pub mod sizes;
pub mod transform;
