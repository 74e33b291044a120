//! Inputs for tests, most of them random. They keep the paper's rules where no name says otherwise.

mod refused;

pub use refused::{
    any_refused_description, can_break, for_refused_descriptions, put_faults, refused_description,
    spoil_description,
};

use std::cmp::Reverse;
use std::ops::RangeInclusive;

use crate::reference::channel::{clip, value_byte};
use crate::reference::description::{describe, is_information, mask_of, record, with_start, Code};
use crate::reference::packing::pack;
use crate::reference::sizes::{LARGEST_N, LAYERS};
use crate::testing::random::Random;

/// Any n.
pub fn layers(random: &mut Random) -> usize {
    random.between(*LAYERS.start(), LARGEST_N)
}

/// A description that is accepted, of either kind, any check width and any number of information
/// indices.
pub fn description(random: &mut Random, n: usize) -> Vec<u8> {
    let d = description_of_kind_1(random, n);
    either_kind(random, d)
}

pub fn description_of_kind_1(random: &mut Random, n: usize) -> Vec<u8> {
    let size = 1 << n;
    let r = random.between(1, 16.min(size - 1));
    let ones = random.between(r + 1, size);
    record(n, r, polynomial(random, r), &mask(random, size, ones))
}

/// An accepted description of either kind whose information indices are the better ones, so that
/// channel values with some noise are decoded.
pub fn useful_description(random: &mut Random, n: usize) -> Vec<u8> {
    let d = useful_description_of_kind_1(random, n);
    either_kind(random, d)
}

pub fn useful_description_of_kind_1(random: &mut Random, n: usize) -> Vec<u8> {
    let size = 1 << n;
    let r = random.between(1, 16.min(size / 4));
    let ones = random.between(r + 1, size / 2 + r);
    record(n, r, polynomial(random, r), &useful_mask(size, ones))
}

/// A description of kind 1 as it is, or of kind 4 with any start.
pub fn either_kind(random: &mut Random, d: Vec<u8>) -> Vec<u8> {
    match random.bit() {
        true => with_start(&d, start(random, d[5].into())),
        false => d,
    }
}

/// A start of a check of width r, now and then 0.
pub fn start(random: &mut Random, r: usize) -> u16 {
    match random.below(8) {
        0 => 0,
        _ => nonzero_start(random, r),
    }
}

pub fn nonzero_start(random: &mut Random, r: usize) -> u16 {
    random.between(1, (1 << r) - 1) as u16
}

/// Gives accepted descriptions and their codes to a test, `count` for each n of a range.
pub fn for_descriptions(
    seed: u64,
    layers: RangeInclusive<usize>,
    count: usize,
    mut test: impl FnMut(&mut Random, &[u8], Code),
) {
    let mut random = Random::new(seed);
    for n in layers {
        for _ in 0..count {
            let d = description(&mut random, n);
            let code = describe(&d).expect("an accepted description");
            test(&mut random, &d, code);
        }
    }
}

/// Now and then gives a channel another length, or puts any byte into it.
pub fn spoil_channel(random: &mut Random, channel: &mut Vec<u8>) {
    if random.below(4) == 0 {
        channel.resize(random.below(2 * channel.len()), 0);
    }
    if random.below(3) == 0 && !channel.is_empty() {
        let place = random.below(channel.len());
        channel[place] = random.byte();
    }
}

/// A check polynomial of width r.
pub fn polynomial(random: &mut Random, r: usize) -> u16 {
    1 | random.below(1 << r) as u16
}

/// A mask of `size` indices, `ones` of which are information indices.
pub fn mask(random: &mut Random, size: usize, ones: usize) -> Vec<bool> {
    let mut mask: Vec<bool> = (0..size).map(|index| index < ones).collect();
    for last in (1..size).rev() {
        mask.swap(last, random.below(last + 1));
    }
    mask
}

/// A mask whose information indices are those with the most one bits, the higher ones first.
pub fn useful_mask(size: usize, ones: usize) -> Vec<bool> {
    let mut indices: Vec<usize> = (0..size).collect();
    indices.sort_by_key(|&index| Reverse((index.count_ones(), index)));
    mask_with(size, &indices[..ones])
}

/// A mask of 2^n indices whose information indices are the most reliable ones by polarization
/// weight: the sum of 2^(j/4) over the one bits j of an index.
pub fn reliable_mask(n: usize, ones: usize) -> Vec<bool> {
    let power = |j: usize| 2f64.powf(j as f64 / 4.0);
    let weights: Vec<f64> = (0..n).fold(vec![0.0], |weights, j| {
        let upper: Vec<f64> = weights.iter().map(|weight| weight + power(j)).collect();
        [weights, upper].concat()
    });
    let mut indices: Vec<usize> = (0..1 << n).collect();
    indices.sort_by(|&a, &b| weights[b].total_cmp(&weights[a]));
    mask_with(1 << n, &indices[..ones])
}

/// A mask of `size` indices whose information indices are these.
pub fn mask_with(size: usize, information: &[usize]) -> Vec<bool> {
    let mut mask = vec![false; size];
    for &index in information {
        mask[index] = true;
    }
    mask
}

/// The most flips of a trial, w.
pub fn most_flips(random: &mut Random) -> u32 {
    random.between(1, 3) as u32
}

/// The same where it is refused, some with an allowed number in the lower bits.
pub fn wrong_most_flips(random: &mut Random) -> u32 {
    let allowed = most_flips(random);
    let high = 1 << random.between(2, 31);
    [0, 4, high, high + allowed, u32::MAX][random.below(5)]
}

/// A packed payload of k bits.
pub fn payload(random: &mut Random, k: usize) -> Vec<u8> {
    pack(&random.bits(k))
}

/// A prefix of q bits without a one at a frozen index.
pub fn prefix(random: &mut Random, d: &[u8], q: usize) -> Vec<u8> {
    let mask = mask_of(d);
    (0..q)
        .map(|index| u8::from(is_information(mask, index) && random.bit()))
        .collect()
}

/// Channel values of a magnitude up to `largest`, at most 31.
pub fn channel(random: &mut Random, count: usize, largest: usize) -> Vec<u8> {
    (0..count)
        .map(|_| value_byte(random.between(0, 2 * largest) as i64 - largest as i64))
        .collect()
}

/// A byte that is no channel value: near one, or at an end.
pub fn value_out_of_range(random: &mut Random) -> u8 {
    [32, 224, 33, 223, 127, 128][random.below(6)]
}

/// Every vector of eight channel values from −1, 0 and 1.
pub fn small_vectors() -> impl Iterator<Item = Vec<u8>> {
    let digit = |number: usize, place| number / 3usize.pow(place) % 3;
    (0..3usize.pow(8)).map(move |number| {
        (0..8)
            .map(|place| value_byte(digit(number, place) as i64 - 1))
            .collect()
    })
}

/// Channel values with the signs of a codeword and no zero.
pub fn noiseless(random: &mut Random, codeword: &[u8]) -> Vec<u8> {
    codeword
        .iter()
        .map(|&bit| value_byte(favour(bit, random.between(1, 31))))
        .collect()
}

/// Channel values of a codeword sent at `strength`, with noise of up to three times `noise`.
pub fn noisy(random: &mut Random, codeword: &[u8], strength: usize, noise: usize) -> Vec<u8> {
    codeword
        .iter()
        .map(|&bit| {
            let disturbed = random.between(0, 2 * noise) as i64
                + random.between(0, 2 * noise) as i64
                + random.between(0, 2 * noise) as i64
                - 3 * noise as i64;
            value_byte(clip(favour(bit, strength) + disturbed))
        })
        .collect()
}

/// A value of this magnitude that favours a bit.
fn favour(bit: u8, magnitude: usize) -> i64 {
    (1 - 2 * i64::from(bit)) * magnitude as i64
}

#[cfg(test)]
mod tests {
    use super::*;
    use crate::reference::description::{has_start, information_indices};

    /// Of each n some have no start, some start 0, and most of the others another start.
    #[test]
    fn descriptions_are_accepted() {
        let mut random = Random::new(1);
        for n in LAYERS {
            let mut met = [0; 3];
            for round in 0..200 {
                let d = match round % 2 {
                    0 => description(&mut random, n),
                    _ => useful_description(&mut random, n),
                };
                let code = describe(&d).expect("an accepted description");
                assert_eq!(code.n, n, "{d:02x?}");
                met[usize::from(has_start(&d)) + usize::from(code.start != 0)] += 1;
            }
            let [without, zero, others] = met;
            assert!(without >= 60 && zero >= 1 && others >= 60, "{met:?}");
        }
    }

    /// Four of eight are those of D.
    #[test]
    fn useful_and_reliable_indices() {
        for mask in [useful_mask(8, 4), reliable_mask(3, 4)] {
            let d = record(3, 1, 1, &mask);
            assert_eq!(information_indices(mask_of(&d)), [3, 5, 6, 7]);
        }
    }

    #[test]
    fn small_vectors_differ() {
        let mut vectors: Vec<Vec<u8>> = small_vectors().collect();
        assert!(vectors.iter().flatten().all(|v| [0, 1, 255].contains(v)));
        vectors.sort();
        vectors.dedup();
        assert_eq!(vectors.len(), 6561);
    }

    #[test]
    fn values_favour_their_bits() {
        let mut random = Random::new(3);
        let x = random.bits(1000);
        let sign = |byte: &u8| byte >> 7;
        let right = noiseless(&mut random, &x);
        assert!(right.iter().map(sign).eq(x.iter().copied()));
        assert!(!right.contains(&0));
        let weak = noisy(&mut random, &x, 2, 0);
        assert!(weak
            .iter()
            .zip(&x)
            .all(|(v, bit)| *v == [2, 0xFE][usize::from(*bit)]));
        let strong = noisy(&mut random, &x, 31, 31);
        assert!(strong.iter().all(|v| !(32..=224).contains(v)));
    }
}
