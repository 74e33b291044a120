//! Refusals, numbered as in documents 01 and 02; numbers from 40 on are the codec's own.

/// A refusal carries its number alone unless its line in the paper names more.
#[derive(Clone, Copy, Debug, PartialEq, Eq)]
pub enum Refusal {
    /// The number alone.
    Number(u8),
    /// 13, 18 and 22: the number and the first index at fault.
    At(u8, usize),
    /// 16: the trials made, T unless the flip sets were used up before, and the steps made.
    AllFailed { trials: usize, steps: usize },
}

impl Refusal {
    pub fn number(&self) -> u8 {
        match *self {
            Refusal::Number(number) | Refusal::At(number, _) => number,
            Refusal::AllFailed { .. } => 16,
        }
    }
}

/// The number of an answer's refusal, or 0.
pub fn refusal_number<T>(answer: &Result<T, Refusal>) -> usize {
    match answer {
        Ok(_) => 0,
        Err(refusal) => refusal.number().into(),
    }
}

impl From<u8> for Refusal {
    fn from(number: u8) -> Self {
        Refusal::Number(number)
    }
}
