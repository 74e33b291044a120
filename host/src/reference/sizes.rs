//! The sizes of document 01, with the largest n of document 02, request 2.3: n lies in `LAYERS`, and
//! the others follow from the largest n, but for the longest record.

use std::ops::RangeInclusive;

use crate::reference::description::LONGEST_DESCRIPTION;

/// The layers of a code, n.
pub const LAYERS: RangeInclusive<usize> = 3..=12;

/// The largest n.
pub const LARGEST_N: usize = *LAYERS.end();

/// The longest code, N.
pub const LONGEST: usize = 1 << LARGEST_N;

/// Its bits, packed: the bytes of the longest mask and of the longest codeword.
pub const LONGEST_BYTES: usize = LONGEST / 8;

/// The steps of one pass.
pub const MOST_STEPS: usize = LARGEST_N * LONGEST;

/// The trials of one call.
pub const MOST_TRIALS: usize = LONGEST + 1;

/// The longest record: its length is told in two bytes.
pub const LONGEST_RECORD: usize = 65_535;

/// The state of a hearing: a description, the count, a byte for each value.
pub const HEARING_SIZE: usize = LONGEST_DESCRIPTION + 1 + LONGEST;
