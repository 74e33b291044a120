//! Which refusals a test has met.

use std::collections::BTreeMap;

/// How often each refusal was met, 0 standing for acceptance.
#[derive(Debug, Default)]
pub struct Met(BTreeMap<usize, usize>);

impl Met {
    pub fn count(&mut self, refusal: usize) {
        *self.0.entry(refusal).or_default() += 1;
    }

    /// How many were counted.
    pub fn calls(&self) -> usize {
        self.0.values().sum()
    }

    /// That each number of these lists was met, and no other.
    pub fn are_all(&self, lists: &[&[usize]]) {
        let mut all = lists.concat();
        all.sort();
        assert!(self.0.keys().eq(&all), "{self:?} and not {all:?}");
    }
}

#[cfg(test)]
mod tests {
    use super::*;

    fn met(refusals: [usize; 4]) -> Met {
        let mut met = Met::default();
        refusals.iter().for_each(|&refusal| met.count(refusal));
        met
    }

    #[test]
    fn all_are_met() {
        let met = met([0, 25, 8, 25]);
        met.are_all(&[&[0, 25], &[8]]);
        assert_eq!(met.calls(), 4);
    }

    #[test]
    #[should_panic(expected = "and not [0, 8]")]
    fn one_too_many() {
        met([0, 25, 8, 25]).are_all(&[&[0, 8]]);
    }

    #[test]
    #[should_panic(expected = "and not [0, 7, 8, 25]")]
    fn one_is_missing() {
        met([0, 25, 8, 25]).are_all(&[&[0], &[25, 7, 8]]);
    }
}
