//! The number that a call gives back.

/// Of an accepted or of a refused call, the number that comes back.
pub type Answer = Result<u64, u64>;

pub fn number(answer: Answer) -> u64 {
    match answer {
        Ok(number) | Err(number) => number,
    }
}

/// Refuses where a rule is broken.
pub fn refuse_if(broken: bool, refusal: u64) -> Result<(), u64> {
    if broken {
        Err(refusal)
    } else {
        Ok(())
    }
}
