//! The simulated codes.

use std::sync::OnceLock;

use crate::reference::description::record;
use crate::simulation::construction::information_set;
use crate::simulation::evolution::evolved_set;
use crate::simulation::{ratio, Named, Setting, CHECK, DEPTH, SETTINGS};
use crate::testing::samples::mask_with;

/// The check of document 001, z^11 + z^10 + z^9 + z^5 + 1.
const CHECK_5G: (usize, u16) = (11, 0x621);

/// The indices of 5G from the least to the most reliable: 3GPP TS 38.212, table 5.3.1.2-1.
const RELIABILITY: &str = include_str!("reliability.txt");

/// A family with a code for each payload size.
#[derive(Clone, Copy, Debug, PartialEq, Eq)]
pub enum Codes {
    /// The check of document 000, and sets by the Gaussian approximation.
    Gaussian,
    /// The check of document 000, and sets by density evolution: its codes, as near as may be.
    Evolved,
    /// The codes of document 001.
    FiveG,
}

impl Named for Codes {
    const ALL: &'static [Codes] = &[Codes::Gaussian, Codes::Evolved, Codes::FiveG];

    fn name(self) -> &'static str {
        match self {
            Codes::Gaussian => "Gaussian approximation",
            Codes::Evolved => "density evolution",
            Codes::FiveG => "5G",
        }
    }
}

impl Codes {
    /// A code, of kind 1.
    pub fn description(self, setting: &Setting) -> Vec<u8> {
        let (r, polynomial) = match self {
            Codes::Gaussian | Codes::Evolved => CHECK,
            Codes::FiveG => CHECK_5G,
        };
        let (ones, mean) = (setting.k + r, ratio(setting.k, setting.design));
        let mask = match self {
            Codes::Gaussian => information_set(DEPTH, ones, mean),
            Codes::Evolved => evolved_once(setting),
            Codes::FiveG => set_5g(ones),
        };
        record(DEPTH, r, polynomial, &mask)
    }
}

impl Setting {
    /// The code of the benchmark and of single flips.
    pub fn description(&self) -> Vec<u8> {
        Codes::Gaussian.description(self)
    }
}

/// A set by density evolution, which takes a second, made once.
fn evolved_once(setting: &Setting) -> Vec<bool> {
    static SETS: [OnceLock<Vec<bool>>; SETTINGS.len()] =
        [const { OnceLock::new() }; SETTINGS.len()];
    let (ones, mean) = (setting.k + CHECK.0, ratio(setting.k, setting.design));
    let place = SETTINGS.iter().position(|of| of == setting);
    let set = &SETS[place.expect("a setting")];
    set.get_or_init(|| evolved_set(DEPTH, ones, mean)).clone()
}

/// A mask of the `ones` most reliable indices of 5G.
fn set_5g(ones: usize) -> Vec<bool> {
    let order: Option<Vec<usize>> = RELIABILITY
        .split_whitespace()
        .map(|index| index.parse().ok())
        .collect();
    let order = order.expect("indices");
    mask_with(order.len(), &order[order.len() - ones..])
}

#[cfg(test)]
mod tests {
    use super::*;
    use crate::simulation::SETTINGS;

    const SIZE: usize = 1 << DEPTH;

    fn indices(ones: usize) -> Vec<usize> {
        let mask = set_5g(ones);
        (0..mask.len()).filter(|&index| mask[index]).collect()
    }

    #[test]
    fn the_order_has_each_index_once() {
        assert_eq!(RELIABILITY.split_whitespace().count(), SIZE);
        assert_eq!(indices(SIZE), (0..SIZE).collect::<Vec<_>>());
    }

    /// What document 001 says of its codes: how many information indices lie below N/2 (table 1), and
    /// the first above for the largest k (section 4.2).
    #[test]
    fn the_sets_are_those_of_document_001() {
        let sets = SETTINGS.map(|setting| indices(setting.k + CHECK_5G.0));
        let below = |set: &Vec<usize>| set.partition_point(|&index| index < SIZE / 2);
        assert_eq!(sets.each_ref().map(below), [10, 38, 144]);
        assert_eq!(sets[2][144], 543);
    }

    /// An index with more one bits at the same places is never less reliable.
    #[test]
    fn every_set_is_closed_under_setting_bits() {
        for ones in 1..=SIZE {
            let mask = set_5g(ones);
            let is_closed = |index: usize| (0..DEPTH).all(|bit| mask[index | 1 << bit]);
            assert!(
                (0..SIZE).all(|index| !mask[index] || is_closed(index)),
                "{ones}"
            );
        }
    }
}
