//! The searches with flip sets that are timed: those of document 000, table I.

use std::fmt::{self, Display, Formatter};

use crate::simulation::{ratio, Setting, SETTINGS};

/// A payload size k of `SETTINGS`, the most flips w and the trial limit T.
#[derive(Clone, Copy, Debug, PartialEq, Eq)]
pub struct Search {
    pub k: usize,
    pub most_flips: u32,
    pub limit: u32,
}

/// DSCF-2 and DSCF-3: w, T, and for each of `SETTINGS` the Eb/N0 in dB where one frame in a hundred
/// fails.
const DYNAMIC: [(u32, u32, [f64; 3]); 2] =
    [(2, 51, [1.5, 1.44, 2.0]), (3, 301, [1.25, 1.25, 1.875])];

impl Search {
    /// All of them, by w and then by k.
    pub fn all() -> Vec<Search> {
        let of = |(most_flips, limit, _)| {
            SETTINGS.iter().map(move |setting| Search {
                k: setting.k,
                most_flips,
                limit,
            })
        };
        DYNAMIC.into_iter().flat_map(of).collect()
    }

    fn place(&self) -> usize {
        let place = SETTINGS.iter().position(|setting| setting.k == self.k);
        place.expect("a payload size of document 000")
    }

    pub fn setting(&self) -> &'static Setting {
        &SETTINGS[self.place()]
    }

    pub fn decibels(&self) -> f64 {
        let found = DYNAMIC.into_iter().find(|&(w, ..)| w == self.most_flips);
        let (_, _, decibels) = found.expect("a w of document 000");
        decibels[self.place()]
    }

    /// The quantiser's scale, which makes samples log-likelihood ratios: the metric's 20 and 6 are
    /// quarters of such.
    pub fn scale(&self) -> f32 {
        ratio(self.k, self.decibels()) as f32
    }
}

impl Display for Search {
    fn fmt(&self, to: &mut Formatter) -> fmt::Result {
        write!(to, "w = {}, T = {}", self.most_flips, self.limit)
    }
}

#[cfg(test)]
mod tests {
    use super::*;

    #[test]
    fn searches_of_table_1() {
        let all = Search::all();
        let decibels: Vec<f64> = all.iter().map(Search::decibels).collect();
        assert_eq!(decibels, [1.5, 1.44, 2.0, 1.25, 1.25, 1.875]);
        let names: Vec<String> = all.iter().map(Search::to_string).collect();
        assert_eq!([&names[0], &names[5]], ["w = 2, T = 51", "w = 3, T = 301"]);
    }
}
