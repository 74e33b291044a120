//! What the papers report, each decoder at the Eb/N0 where about one frame in a hundred fails.

use crate::simulation::{Codes, Flips, Setting, SETTINGS};

/// The decoders of the tables, in their order.
const DECODERS: [Flips; 4] = [
    Flips::Single,
    Flips::Sets(1),
    Flips::Sets(2),
    Flips::Sets(3),
];

/// Document 000, table I, of half restart. For each of `SETTINGS` and each decoder: Eb/N0 in dB, then
/// what is saved in %, of the average time (∆L), of the average additional time (∆L′) and of the
/// time's variance (∆V).
pub const HALF: [[(f64, [f64; 3]); 4]; 3] = [
    [
        (2.0, [11.17, 48.30, 73.50]),
        (1.875, [7.57, 43.57, 67.28]),
        (1.5, [22.73, 40.71, 63.26]),
        (1.25, [31.70, 37.08, 57.28]),
    ],
    [
        (1.875, [9.00, 44.68, 69.15]),
        (1.75, [5.01, 33.33, 50.87]),
        (1.44, [14.74, 27.60, 41.74]),
        (1.25, [19.09, 22.57, 34.78]),
    ],
    [
        (2.375, [6.54, 37.44, 59.71]),
        (2.25, [2.95, 22.04, 32.35]),
        (2.0, [6.96, 13.83, 19.00]),
        (1.875, [7.33, 9.03, 12.20]),
    ],
];

/// Document 001, table 5 with SC as the baseline, of restarting after the flipped bit (GRM): Eb/N0 in
/// dB, then what is saved of the average time in %. Its table 6 has the last of each again.
pub const RESTARTED: [[(f64, f64); 4]; 3] = [
    [(2.0, 15.81), (1.75, 12.27), (1.375, 38.00), (1.125, 56.90)],
    [
        (1.75, 18.06),
        (1.625, 10.81),
        (1.375, 29.46),
        (1.125, 46.18),
    ],
    [(2.375, 10.50), (2.25, 5.00), (2.0, 15.71), (1.75, 26.00)],
];

/// Document 001, table 6, of half restart (SRM) with DSCF-3: what is saved of the average time in %.
pub const DYNAMIC_HALF: [f64; 3] = [30.05, 17.90, 4.04];

/// Document 001, table 1, with DSCF-3: the part of later trials whose lowest flipped index is N/2 or
/// above, in %.
pub const DYNAMIC_RIGHT: [u32; 3] = [71, 41, 10];

/// The place of DSCF-3 in the tables.
pub const DYNAMIC: usize = DECODERS.len() - 1;

/// The lines of a table: the places of a payload size and of a decoder, and the decoder.
pub fn by_size() -> impl Iterator<Item = (usize, usize, Flips)> {
    (0..SETTINGS.len()).flat_map(|size| {
        let decoders = DECODERS.into_iter().enumerate();
        decoders.map(move |(place, flips)| (size, place, flips))
    })
}

/// A point of the tables: a code, a decoder and Eb/N0 in dB.
#[derive(Clone, Copy, Debug, PartialEq)]
pub struct Place {
    pub setting: &'static Setting,
    pub codes: Codes,
    pub flips: Flips,
    pub decibels: f64,
}

/// The points of both tables, each once: document 000's codes at all of them, document 001's at its
/// own.
pub fn places() -> Vec<Place> {
    let of = |(size, decoder, flips): (usize, usize, Flips)| {
        let (half, restarted) = (HALF[size][decoder].0, RESTARTED[size][decoder].0);
        let place = move |(codes, decibels)| Place {
            setting: &SETTINGS[size],
            codes,
            flips,
            decibels,
        };
        let mut points = vec![
            (Codes::Evolved, half),
            (Codes::Evolved, restarted),
            (Codes::FiveG, restarted),
        ];
        points.dedup();
        points.into_iter().map(place)
    };
    by_size().flat_map(of).collect()
}
