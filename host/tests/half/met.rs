//! Which trials a test has met.

use crate::middle::middle;

/// How often a trial with one, two and three flips, the lowest at N/2 − 1, N/2 or N/2 + 1, was
/// accepted, and how often one failed.
#[derive(Debug, Default)]
pub struct Met {
    accepted: [[usize; 3]; 3],
    failed: [[usize; 3]; 3],
}

impl Met {
    /// Counts the trials of an answer of the half decoder, by their sets from trial 2 on; that it has
    /// the steps of these.
    pub fn count(&mut self, n: usize, answer: u64, sets: &[Vec<usize>]) {
        let [_, half, _] = middle(n);
        let right = sets.iter().filter(|set| set[0] >= half).count();
        assert_eq!(answer >> 32, steps(n, 1 + sets.len(), right), "{sets:?}");
        for (place, set) in sets.iter().enumerate() {
            let is_accepted = answer & 0xFF == 0 && place + 1 == sets.len();
            let met = match is_accepted {
                true => &mut self.accepted,
                false => &mut self.failed,
            };
            if let Some(place) = place_of(n, set) {
                met[place][set.len() - 1] += 1;
            }
        }
    }

    /// Whether each with up to so many flips came about at least so often.
    pub fn has(&self, flips: usize, least: usize) -> bool {
        let mut all = self.accepted.iter().chain(&self.failed);
        all.all(|of| of[..flips].iter().all(|&count| count >= least))
    }

    /// Whether trials with so many flips as this set has, and its lowest index, came about less often.
    pub fn lacks(&self, n: usize, set: &[usize], least: usize) -> bool {
        let both =
            |place: usize| [&self.accepted, &self.failed].map(|met| met[place][set.len() - 1]);
        place_of(n, set).is_some_and(|place| both(place).iter().any(|&count| count < least))
    }
}

/// Which of the three indices is the lowest of a set.
fn place_of(n: usize, set: &[usize]) -> Option<usize> {
    let lowest = set.first()?;
    middle(n).iter().position(|index| index == lowest)
}

/// The steps of so many trials, `right` of which resume at the middle: each of these saves half of a
/// pass.
fn steps(n: usize, trials: usize, right: usize) -> u64 {
    ((2 * trials - right) * (n << (n - 1))) as u64
}
