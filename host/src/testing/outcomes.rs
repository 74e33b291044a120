//! What became of frames.

use crate::reference::flip::Accepted;
use crate::reference::refusal::Refusal;

/// How often frames were accepted on trial 1, on a later trial, and not at all.
#[derive(Default, Debug)]
pub struct Outcomes {
    first: usize,
    later: usize,
    none: usize,
}

impl Outcomes {
    pub fn count(&mut self, answer: Result<Accepted, Refusal>) {
        match answer {
            Ok(accepted) if accepted.trial == 1 => self.first += 1,
            Ok(_) => self.later += 1,
            Err(Refusal::AllFailed { .. }) => self.none += 1,
            Err(refusal) => panic!("refused {}", refusal.number()),
        }
    }

    /// Counts the number of an answer; refusals before trial 1 are no outcome.
    pub fn count_number(&mut self, number: u64) {
        match (number & 0xFF, number >> 8 & 0xFF_FFFF) {
            (0, 1) => self.first += 1,
            (0, _) => self.later += 1,
            (16, _) => self.none += 1,
            _ => (),
        }
    }

    /// That each came about at least so often.
    pub fn at_least(&self, least: usize) {
        let each = [self.first, self.later, self.none];
        assert!(each.iter().all(|&count| count >= least), "{self:?}");
    }
    /// That none was accepted on trial 1, and each of the others came about at least so often.
    pub fn never_on_trial_1(&self, least: usize) {
        let others = self.later >= least && self.none >= least;
        assert!(self.first == 0 && others, "{self:?}");
    }
}
