//! What came of calls that were well-formed.

use host::reference::refusal::Refusal;
use host::testing::sets::{check, Lent};

/// How often trials with 0, 1, 2 and 3 flips accepted, how often T trials failed, and how often all
/// sets failed before.
#[derive(Clone, Copy, Debug, Default)]
pub struct Outcomes {
    pub accepted: [usize; 4],
    pub failed: usize,
    pub used_up: usize,
}

impl Outcomes {
    /// Compares a call with the reference, and counts what came of it.
    pub fn check(&mut self, of: Lent, before: &[u8]) {
        let (answer, sets) = check(of, before);
        match answer {
            Ok(_) => self.accepted[sets.last().map_or(0, Vec::len)] += 1,
            Err(Refusal::AllFailed { trials, .. }) if trials < of.limit as usize => {
                self.used_up += 1
            }
            Err(Refusal::AllFailed { .. }) => self.failed += 1,
            Err(refusal) => panic!("refused {}: {of:02x?}", refusal.number()),
        }
    }

    pub fn plus(self, other: Outcomes) -> Outcomes {
        Outcomes {
            accepted: [0, 1, 2, 3].map(|flips| self.accepted[flips] + other.accepted[flips]),
            failed: self.failed + other.failed,
            used_up: self.used_up + other.used_up,
        }
    }

    /// That trials with each number of flips accepted at least so often.
    pub fn accept_at_least(&self, least: [usize; 4]) {
        let mut pairs = self.accepted.iter().zip(least);
        assert!(pairs.all(|(count, least)| *count >= least), "{self:?}");
    }
}
