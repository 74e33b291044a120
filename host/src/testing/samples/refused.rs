//! Descriptions that are refused.

use crate::reference::description::{
    describe, has_start, header_length, mask_of, record, word, REFUSALS,
};
use crate::reference::sizes::{LARGEST_N, LAYERS};
use crate::testing::random::Random;
use crate::testing::samples::{description, layers, mask};

/// Gives refused descriptions and the refusal of each to a test, `count` for each refusal.
pub fn for_refused_descriptions(
    seed: u64,
    count: usize,
    mut test: impl FnMut(&mut Random, &[u8], usize),
) {
    let mut random = Random::new(seed);
    for refusal in REFUSALS {
        for _ in 0..count {
            let d = refused_description(&mut random, refusal);
            test(&mut random, &d, refusal);
        }
    }
}

/// Now and then replaces a description by a refused one.
pub fn spoil_description(random: &mut Random, d: &mut Vec<u8>) {
    if random.below(4) == 0 {
        *d = any_refused_description(random);
    }
}

/// A description, of any n and of either kind, with one fault or more.
pub fn any_refused_description(random: &mut Random) -> Vec<u8> {
    loop {
        let n = layers(random);
        let mut d = description(random, n);
        let chosen = |refusal: &usize| random.below(6) == 0 && can_break(&d, *refusal);
        let faults: Vec<usize> = REFUSALS.into_iter().filter(chosen).collect();
        if !faults.is_empty() {
            put_faults(random, &mut d, &faults);
            return d;
        }
    }
}

/// A description, of any n and of either kind, to which the refusal given applies first.
pub fn refused_description(random: &mut Random, refusal: usize) -> Vec<u8> {
    loop {
        let n = layers(random);
        let mut d = description(random, n);
        if can_break(&d, refusal) {
            put_fault(random, &mut d, refusal);
            return d;
        }
    }
}

/// Whether an accepted description can be changed so that this refusal applies: 25 needs a start,
/// and a bit that it may not have.
pub fn can_break(d: &[u8], refusal: usize) -> bool {
    refusal != 25 || has_start(d) && d[5] < 16
}

/// Puts the faults of these refusals, which stand in their order, into an accepted description,
/// those of later ones first: the first of these refusals applies and none before it; a later one
/// may be undone.
pub fn put_faults(random: &mut Random, d: &mut Vec<u8>, refusals: &[usize]) {
    for &refusal in refusals.iter().rev() {
        put_fault(random, d, refusal);
    }
}

/// Changes a description so that this refusal applies, and none that stands before it.
fn put_fault(random: &mut Random, d: &mut Vec<u8>, refusal: usize) {
    let r = usize::from(d[5]);
    match refusal {
        1 => d.truncate(random.below(least_length(word(d, 2)))),
        2 => {
            let length = word(d, 0).wrapping_add(random.between(1, 65_535) as u16);
            put_word(d, 0, length);
        }
        3 => put_word(d, 2, other_kind(random)),
        4 => d[4] = random.between(LARGEST_N + 1, 255 + LAYERS.start()) as u8,
        5 => put_other_length(random, d),
        6 => d[5] = wrong_width(random),
        7 if r < 16 && random.bit() => set_bit(d, 6, random.between(r, 15)),
        7 => d[6] &= 0xFE,
        25 => set_bit(d, 8, random.between(r, 15)),
        8 => put_few_ones(random, d),
        _ => panic!("a description has no refusal {refusal}"),
    }
}

/// Bytes that a description needs at least, by what it says as its kind.
fn least_length(kind: u16) -> usize {
    header_length(kind).unwrap_or(8)
}

/// A check width that is refused. It is 0 half of the time: then each bit of polynomial and start
/// is at r or above, and otherwise none is.
fn wrong_width(random: &mut Random) -> u8 {
    match random.bit() {
        true => 0,
        false => random.between(17, 255) as u8,
    }
}

/// Makes the length another than that of kind and n: by n, by a zero byte more, by a byte less, or
/// by the kind if there are enough bytes. The kind stays where there is a later fault: another would
/// undo one of the start or of the mask.
fn put_other_length(random: &mut Random, d: &mut Vec<u8>) {
    let swapped = if has_start(d) { 1 } else { 4 };
    let may_swap = describe(d).is_ok() && d.len() >= least_length(swapped);
    match random.below(4) {
        0 if may_swap => put_word(d, 2, swapped),
        1 => d.push(0),
        2 => d.truncate(d.len() - 1),
        _ => d[4] = other_layers(random, d[4].into()) as u8,
    }
    let length = d.len() as u16;
    put_word(d, 0, length);
}

/// Puts a mask of at most r ones in the place of a description's.
fn put_few_ones(random: &mut Random, d: &mut [u8]) {
    let (n, r) = (usize::from(d[4]), usize::from(d[5]));
    let ones = random.below(r + 1);
    let few = record(n, r, 1, &mask(random, 1 << n, ones));
    let first = d.len() - (1 << n) / 8;
    d[first..].copy_from_slice(mask_of(&few));
}

/// A kind that no description has, half of them near to one that has.
fn other_kind(random: &mut Random) -> u16 {
    const NEAR: [u16; 8] = [0, 2, 3, 5, 0x0101, 0x0104, 0x0401, 0x0400];
    let kind = random.below(65_536) as u16;
    match header_length(kind) {
        None if random.bit() => kind,
        _ => NEAR[random.below(NEAR.len())],
    }
}

/// Any n but this one.
fn other_layers(random: &mut Random, n: usize) -> usize {
    let (least, count) = (*LAYERS.start(), LAYERS.count());
    least + (n - least + random.between(1, count - 1)) % count
}

fn put_word(bytes: &mut [u8], place: usize, word: u16) {
    bytes[place..place + 2].copy_from_slice(&word.to_le_bytes());
}

/// Sets bit i of the little-endian number from `place` on.
fn set_bit(bytes: &mut [u8], place: usize, i: usize) {
    bytes[place + i / 8] |= 1 << (i % 8);
}

#[cfg(test)]
mod tests {
    use super::*;
    use crate::reference::description::{count_information, with_start};
    use crate::testing::samples::description_of_kind_1;
    use std::collections::BTreeSet;

    #[test]
    fn refused_descriptions_are_refused() {
        for_refused_descriptions(2, 1_000, |_, d, refusal| {
            assert_eq!(describe(d), Err(refusal as u8), "{d:02x?}");
        });
    }

    /// Also those of 8 and of 9 bytes, which only kind 4 has too few of.
    #[test]
    fn refused_descriptions_are_of_both_kinds() {
        let (mut lengths, mut kinds) = (BTreeSet::new(), BTreeSet::new());
        for_refused_descriptions(3, 1_000, |_, d, refusal| {
            if refusal == 1 {
                lengths.insert(d.len());
            } else {
                kinds.insert((refusal, has_start(d)));
            }
        });
        assert!(lengths.into_iter().eq(0..10));
        for refusal in [2, 4, 5, 6, 7, 8] {
            assert!(kinds.contains(&(refusal, false)) && kinds.contains(&(refusal, true)));
        }
    }

    /// Whether the number from `place` on has a bit at r or above.
    fn has_high_bit(d: &[u8], place: usize) -> bool {
        u32::from(word(d, place)) >= 1 << d[5].min(16)
    }

    /// Whether 7, 25 or 8 applies to a description of kind 4, whatever else is wrong with it.
    fn applies(d: &[u8], refusal: usize) -> bool {
        match refusal {
            7 => d[6] & 1 == 0 || has_high_bit(d, 6),
            25 => has_start(d) && has_high_bit(d, 8),
            _ => has_start(d) && count_information(mask_of(d)) <= d[5].into(),
        }
    }

    /// Puts the faults of two refusals into 1,000 descriptions of kind 4; to so many the second one
    /// applies too.
    fn both(first: usize, second: usize) -> usize {
        let mut random = Random::new(4);
        let is_both = |_: &usize| {
            let mut d = with_start(&description_of_kind_1(&mut random, 4), 1);
            put_faults(&mut random, &mut d, &[first, second]);
            assert_eq!(describe(&d), Err(first as u8), "{d:02x?}");
            applies(&d, second)
        };
        (0..1_000).filter(is_both).count()
    }

    /// A wrong r leaves a later fault half of the time at least.
    #[test]
    fn later_faults_stay() {
        for (first, second) in [(5, 7), (5, 25), (5, 8), (7, 25), (7, 8), (25, 8)] {
            assert_eq!(both(first, second), 1_000, "{first} and {second}");
        }
        for second in [7, 25, 8] {
            let count = both(6, second);
            assert!(count >= 400, "6 and {second}: {count}");
        }
    }
}
