//! Placing by a mask and taking out, held to the reference, and their reports: a walk looks at each
//! bit of the mask once, which are N looks (document 02, request 2.5).

use host::reference::description::count_information;
use host::reference::packing::pack;
use host::reference::placing::{place, take};
use host::reference::sizes::LONGEST_BYTES;
use host::testing::files::text;
use host::testing::guard::{lend_input, lend_output};
use host::testing::library;
use host::testing::random::Random;

type Walk = fn(&[u8], &[u8], &mut [u8]) -> u64;

/// Walks along a mask, from `input` into an output that holds `before`; gives the report and the
/// output after it.
fn run(walk: Walk, mask: &[u8], input: &[u8], before: &[u8]) -> (u64, Vec<u8>) {
    lend_input(mask, |mask| {
        lend_input(input, |input| {
            lend_output(before, |output| walk(mask, input, output))
        })
    })
}

/// The content of an output whose start is written.
fn over(start: &[u8], before: &[u8]) -> Vec<u8> {
    [start, &before[start.len()..]].concat()
}

/// Masks of a length: any bytes, most bytes zero, most bytes full, one bit, one bit missing, none
/// and all.
fn masks(random: &mut Random, length: usize) -> Vec<Vec<u8>> {
    let mostly = |random: &mut Random, byte| {
        let bytes = random.bytes(length).into_iter();
        let mask = bytes.map(|b| if random.below(4) > 0 { byte } else { b });
        mask.collect::<Vec<u8>>()
    };
    let mut one = vec![0; length];
    if length > 0 {
        let place = random.below(length);
        one[place] = 1 << random.below(8);
    }
    vec![
        random.bytes(length),
        mostly(random, 0x00),
        mostly(random, 0xFF),
        one.iter().map(|byte| !byte).collect(),
        one,
        vec![0x00; length],
        vec![0xFF; length],
    ]
}

/// Calls with masks of every number of bytes to that of the longest code, and with bytes to spare in
/// the output.
fn for_masks(seed: u64, mut call: impl FnMut(&mut Random, &[u8], usize)) {
    let mut random = Random::new(seed);
    for length in 0..=LONGEST_BYTES {
        for spare in [0, 0, 0, 0, 1, 2, 9, 70] {
            for mask in masks(&mut random, length) {
                call(&mut random, &mask, spare);
            }
        }
    }
}

/// What follows the message in its array is not placed.
#[test]
fn place_looks_once_at_each_bit() {
    for_masks(1, |random, mask, spare| {
        let count = count_information(mask);
        for more in [0, random.below(20)] {
            let message = random.bits(8 * mask.len() + more);
            let before = random.bytes(mask.len() + spare);
            let expected = over(&pack(&place(mask, &message[..count])), &before);
            let looks = 8 * mask.len() as u64;
            assert_eq!(
                run(library::place, mask, &message, &before),
                (looks, expected),
                "{mask:02x?}"
            );
        }
    });
}

/// Any bytes are taken out, not bits alone.
#[test]
fn take_out_looks_once_at_each_bit() {
    for_masks(2, |random, mask, spare| {
        for more in [0, random.below(20)] {
            let u = random.bytes(8 * mask.len() + more);
            let before = random.bytes(8 * mask.len() + spare);
            let expected = over(&take(mask, &u), &before);
            let looks = 8 * mask.len() as u64;
            assert_eq!(
                run(library::take_out, mask, &u, &before),
                (looks, expected),
                "{mask:02x?}"
            );
        }
    });
}

/// A call that the function does not admit.
fn refused(walk: Walk, mask: &[u8], input: &[u8], before: &[u8]) {
    assert_eq!(
        run(walk, mask, input, before),
        (u64::MAX, before.to_vec()),
        "{mask:02x?}"
    );
}

#[test]
fn calls_that_are_not_admitted() {
    let mut random = Random::new(3);
    for length in 1..=LONGEST_BYTES {
        let mask = random.bytes(length);
        let (short, full) = (random.bytes(length - 1), random.bytes(length));
        let mut message = random.bits(8 * length);
        refused(library::place, &mask, &message, &short);
        refused(library::place, &mask, &message[1..], &full);
        message[random.below(8 * length)] = 2 | random.byte();
        refused(library::place, &mask, &message, &full);

        let (few, many) = (random.bytes(8 * length - 1), random.bytes(8 * length));
        refused(library::take_out, &mask, &few, &many);
        refused(library::take_out, &mask, &many, &few);
    }
    let longer = random.bytes(LONGEST_BYTES + 1);
    let message = random.bits(8 * longer.len());
    refused(library::place, &longer, &message, &longer);
}

/// The code of a crate without comments, imports and contracts.
fn code(name: &str) -> String {
    let source = text(&format!("crates/{name}/src/lib.rt"));
    let apart = ["//", "ghost use", "requires", "ensures", "×"];
    let lines = source.lines().map(str::trim);
    let code = lines.filter(|line| !apart.iter().any(|start| line.starts_with(start)));
    code.collect::<Vec<&str>>().join("\n")
}

/// How often a word stands in some code.
fn words(code: &str, word: &str) -> usize {
    let is_part = |c: char| c.is_alphanumeric() || c == '_';
    code.split(|c| !is_part(c))
        .filter(|part| *part == word)
        .count()
}

/// Contracts say that n looks are counted as n. They do not say that the mask is read by looks alone, or
/// that every walk that a look makes is walked on: a walk may be copied.
#[test]
fn the_mask_is_read_in_one_place() {
    let placing = code("placing");
    let uses = [
        "mask: &[u8]",
        "mask.len()",
        "placed_byte(mask, ",
        "walk.look(mask)",
    ];
    let used = uses.map(|part| placing.matches(part).count());
    assert_eq!(
        used.iter().sum::<usize>(),
        words(&placing, "mask"),
        "{used:?}"
    );
    let looks = words(&placing, "look");
    assert_eq!(
        looks,
        placing.matches("let seen = walk.look(mask);").count()
    );
    assert_eq!(looks, placing.matches("walk = seen.walk;").count());
    assert_eq!(words(&placing, "bits"), 0);

    let walk = code("walk");
    assert_eq!(walk.matches("bits::mask_bit(mask, self.looks)").count(), 1);
    assert_eq!((words(&walk, "mask_bit"), words(&walk, "mask")), (1, 2));
}
