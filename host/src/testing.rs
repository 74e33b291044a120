//! What the tests need: `library` calls the codec, `guard` lends buffers to it, `lent` does both,
//! `sealed` has memory that cannot be written, `decoders`, `sets` and `hearing` hold the library to the
//! reference, `stack` measures what a call takes, `program` runs `receive`; `random`, `samples`, `call`
//! and `faulty` make inputs, `cab` calls on a hearing, `streams` what `receive` reads, `passing` frames
//! that a chosen trial accepts, `paper` has those that the documents name, `examples` those of flip sets
//! by hand, `hex` reads bytes, `met` counts refusals, and `outcomes` what became of frames; `files` has
//! the repository's files, `belief` what must be believed of the definitions, and `words` how long the parts
//! of functions are.

pub mod belief;
pub mod cab;
pub mod call;
pub mod decoders;
pub mod examples;
pub mod faulty;
pub mod files;
pub mod guard;
pub mod hearing;
pub mod hex;
pub mod lent;
pub mod library;
pub mod met;
pub mod outcomes;
pub mod paper;
pub mod passing;
pub mod program;
pub mod random;
pub mod samples;
pub mod sealed;
pub mod sets;
pub mod stack;
pub mod streams;
pub mod words;
