//! The numbers of a code: document 01, "Code description", and document 02, request 2.1.

/// What an accepted description says: n, the check width r, the check polynomial, the start of the
/// check, and the payload size k in bits.
#[derive(Clone, Copy, Debug, PartialEq, Eq)]
pub struct Code {
    pub n: usize,
    pub r: usize,
    pub polynomial: u16,
    pub start: u16,
    pub k: usize,
}

impl Code {
    /// N, the number of indices.
    pub fn size(&self) -> usize {
        1 << self.n
    }

    /// K, the number of information indices.
    pub fn information(&self) -> usize {
        self.k + self.r
    }
}
