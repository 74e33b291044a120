//! Streams of records for the program `receive`: the cases in tests/cases, the recordings that are
//! shipped, and random ones.

use std::ops::RangeInclusive;

use crate::reference::description::{
    describe, mask_of, record, record_with_start, with_start, Code,
};
use crate::reference::encode::codeword;
use crate::reference::sizes::{LARGEST_N, LONGEST, LONGEST_RECORD};
use crate::testing::hex::parse;
use crate::testing::paper::{D, D_WITH_START, V};
use crate::testing::random::Random;
use crate::testing::samples;

/// The n of the long codes that have cases of their own.
const LONG: RangeInclusive<usize> = 10..=LARGEST_N;

/// A channel record.
pub fn channel(limit: u16, values: &[u8]) -> Vec<u8> {
    let length = 6 + values.len() as u16;
    [&length.to_le_bytes(), &[2, 0], &limit.to_le_bytes(), values].concat()
}

/// A record of any kind, of `length` bytes in all, whose body is zeros.
pub fn blank(length: usize, kind: u16) -> Vec<u8> {
    let [low, high] = kind.to_le_bytes();
    resized(&[0, 0, low, high], length)
}

/// A record that is cut, or goes on with zeros, to `length` bytes.
fn resized(record: &[u8], length: usize) -> Vec<u8> {
    let mut record = record.to_vec();
    record.resize(length, 0);
    record[..2].copy_from_slice(&(length as u16).to_le_bytes());
    record
}

/// Channel values of a random payload, sent at `strength` with `noise`.
fn frame(random: &mut Random, d: &[u8], code: &Code, strength: usize, noise: usize) -> Vec<u8> {
    let sent = codeword(code, mask_of(d), &random.bits(code.k));
    samples::noisy(random, &sent, strength, noise)
}

/// A channel record with little noise, which trial 1 decodes.
pub fn clear(random: &mut Random, d: &[u8], limit: u16) -> Vec<u8> {
    let code = describe(d).expect("an accepted description");
    channel(limit, &frame(random, d, &code, 20, 1))
}

/// A channel record of eight zeros.
fn silence(limit: u16) -> Vec<u8> {
    channel(limit, &[0; 8])
}

/// The recording: a code of N = 128, k = 40, r = 11 and then 300 frames, sixty at each of five
/// noise levels.
pub fn recording() -> Vec<u8> {
    let d = record(7, 11, 0x621, &samples::useful_mask(128, 51));
    recorded(2026, &d, [4, 5, 6, 7, 8], 60)
}

/// The recording of a survey: the longest description, with k = 1,024 and a check of 16 bits that
/// starts at FFFF, and then twenty frames, four at each of five noise levels.
pub fn survey() -> Vec<u8> {
    let mask = samples::reliable_mask(LARGEST_N, 1_024 + 16);
    let d = record_with_start(LARGEST_N, 16, 0x1021, 0xFFFF, &mask);
    recorded(2027, &d, [6, 7, 8, 9, 10], 4)
}

/// A description and then frames under it, so many at each noise level, with T = 16.
fn recorded(seed: u64, d: &[u8], levels: [usize; 5], frames: usize) -> Vec<u8> {
    let mut random = Random::new(seed);
    let code = describe(d).expect("an accepted description");
    let mut stream = d.to_vec();
    for noise in levels {
        for _ in 0..frames {
            stream.extend(channel(16, &frame(&mut random, d, &code, 7, noise)));
        }
    }
    stream
}

/// The cases: a name and a stream each.
pub fn cases() -> Vec<(String, Vec<u8>)> {
    let mut cases = refused_descriptions();
    cases.extend(refused_long_descriptions());
    cases.extend(refused_frames());
    cases.extend(cuts());
    cases.extend(accepted());
    cases.extend(long_codes());
    cases.extend(with_a_start());
    cases.extend(frames_with_a_start());
    cases
}

fn case(name: &str, records: &[&[u8]]) -> (String, Vec<u8>) {
    (name.to_string(), records.concat())
}

/// A description of each kind refused by each number that a record can meet, while D is held. Lengths
/// agree with the bytes in a stream and the kind is 1 or 4, so that 2 and 3 do not occur.
fn refused_descriptions() -> Vec<(String, Vec<u8>)> {
    let refused = [
        ("description-refused-1", "04 00 01 00"),
        ("description-refused-4", "09 00 01 00 02 01 01 00 E8"),
        ("description-refused-5", "0A 00 01 00 03 01 01 00 E8 00"),
        ("description-refused-6", "09 00 01 00 03 11 01 00 E8"),
        ("description-refused-7", "09 00 01 00 03 01 02 00 E8"),
        ("description-refused-8", "09 00 01 00 03 01 01 00 80"),
        (
            "description-refused-5-length-of-kind-4",
            "0B 00 01 00 03 01 01 00 01 00 E8",
        ),
        ("kind-4-refused-1", "04 00 04 00"),
        ("kind-4-refused-1-of-8-bytes", "08 00 04 00 03 01 01 00"),
        ("kind-4-refused-1-of-9-bytes", "09 00 04 00 03 01 01 00 E8"),
        ("kind-4-refused-4", "0B 00 04 00 02 01 01 00 01 00 E8"),
        ("kind-4-refused-5", "0C 00 04 00 03 01 01 00 01 00 E8 00"),
        (
            "kind-4-refused-5-length-of-kind-1",
            "0A 00 04 00 04 01 01 00 FF FF",
        ),
        ("kind-4-refused-6", "0B 00 04 00 03 11 01 00 01 00 E8"),
        ("kind-4-refused-7", "0B 00 04 00 03 01 02 00 01 00 E8"),
        ("kind-4-refused-25", "0B 00 04 00 03 01 01 00 02 00 E8"),
        ("kind-4-refused-8", "0B 00 04 00 03 01 01 00 01 00 80"),
    ];
    let frame = channel(2, &V);
    refused
        .map(|(name, bytes)| case(name, &[&D, &parse(bytes), &frame]))
        .to_vec()
}

/// A description of each kind beyond the largest n, and the longest ones with a byte more and with
/// one less, while D is held.
fn refused_long_descriptions() -> Vec<(String, Vec<u8>)> {
    let frame = channel(2, &V);
    let longest = record(LARGEST_N, 1, 1, &[true; LONGEST]);
    let beyond = record(LARGEST_N + 1, 1, 1, &[true; 2 * LONGEST]);
    let kinds = [
        ("description", longest.clone(), beyond.clone()),
        ("kind-4", with_start(&longest, 1), with_start(&beyond, 1)),
    ];
    let of = |(kind, longest, beyond): (&str, Vec<u8>, Vec<u8>)| {
        let named = |end: &str, d: &[u8]| case(&format!("{kind}-refused-{end}"), &[&D, d, &frame]);
        [
            named("4-beyond", &beyond),
            named("5-longest-and-more", &resized(&longest, longest.len() + 1)),
            named("5-longest-but-one", &resized(&longest, longest.len() - 1)),
        ]
    };
    kinds.into_iter().flat_map(of).collect()
}

/// D with a start: silence at two limits and with start 0, a start that stays held when others are
/// refused, and kinds that are nearly 4.
fn with_a_start() -> Vec<(String, Vec<u8>)> {
    let [once, twice] = [1, 2].map(silence);
    let start_0 = parse("0B 00 04 00 03 01 01 00 00 00 E8");
    let refused = parse("0B 00 04 00 03 01 01 00 02 00 E8 09 00 01 00 03 01 01 00 80");
    let near = [3, 5, 0x0104, 0x0401].map(|kind: u16| {
        let mut d = D_WITH_START;
        d[2..4].copy_from_slice(&kind.to_le_bytes());
        d
    });
    vec![
        case("kind-4-silence", &[&D_WITH_START, &once, &twice]),
        case("kind-4-silence-start-0", &[&start_0, &once, &D, &once]),
        case("kind-4-held", &[&D_WITH_START, &refused, &once, &twice]),
        case("kind-4-nearly", &[&D, &near.concat(), &once]),
    ]
}

/// Frames under the recording's code with a start, under more and more noise and of zeros alone, and
/// one under each of the long codes.
fn frames_with_a_start() -> Vec<(String, Vec<u8>)> {
    let mut random = Random::new(21);
    let d = record_with_start(7, 11, 0x621, 0x5A5, &samples::useful_mask(128, 51));
    let code = describe(&d).expect("an accepted description");
    let noise = [1, 5, 6, 7, 7, 7, 7, 8];
    let noisy = noise.map(|noise| channel(16, &frame(&mut random, &d, &code, 7, noise)));
    let zeros = channel(16, &[0; 128]);
    let mut cases = vec![case("kind-4-frames", &[&d, &noisy.concat(), &zeros])];
    for n in LONG {
        let mask = samples::useful_mask(1 << n, 1 << (n - 1));
        let long = record_with_start(n, 16, 0x8005, 0xFFFF, &mask);
        let name = format!("kind-4-code-of-{}", 1 << n);
        cases.push(case(&name, &[&long, &clear(&mut random, &long, 1)]));
    }
    cases
}

/// A channel record refused by each number that it can meet.
fn refused_frames() -> Vec<(String, Vec<u8>)> {
    let frame = channel(2, &V);
    vec![
        case("frame-refused-12-short", &[&D, &channel(2, &V[..7])]),
        case("frame-refused-12-empty", &[&D, &channel(2, &[])]),
        case("frame-refused-13", &[&D, &channel(2, &[0x20; 8])]),
        case("frame-refused-14-none", &[&D, &channel(0, &V)]),
        case("frame-refused-14-many", &[&D, &channel(6, &V)]),
        case("frame-refused-16", &[&D, &channel(1, &V)]),
        case("frame-refused-23", &[&frame, &blank(4, 2), &D, &frame]),
        case(
            "frame-refused-24",
            &[&D, &blank(4, 2), &blank(5, 2), &frame],
        ),
    ]
}

/// Streams that end inside a record, and lengths below 4.
fn cuts() -> Vec<(String, Vec<u8>)> {
    let longest = blank(LONGEST_RECORD, 2);
    let mut cases = vec![
        case("cut-in-length", &[&D, &D[..1]]),
        case("cut-in-kind", &[&D, &D[..3]]),
        case("cut-after-header", &[&D, &D[..4]]),
        case("cut-in-body", &[&D, &channel(2, &V)[..13]]),
        case("cut-in-longest", &[&D, &longest[..LONGEST_RECORD - 1]]),
    ];
    for length in 0..4 {
        let name = format!("length-{length}");
        cases.push(case(&name, &[&D, &[length, 0, 1, 0], &D]));
    }
    cases
}

/// Streams without a refusal of theirs, or with many records.
fn accepted() -> Vec<(String, Vec<u8>)> {
    let long = samples::useful_description_of_kind_1(&mut Random::new(1 << 10), 10);
    let longest = blank(LONGEST_RECORD, 2);
    let other = ["04 00 00 00", "05 00 03 00 FF", "06 00 FF FF 01 00"].map(parse);
    let many = [D.to_vec(), channel(2, &V), other[1].clone()].concat();
    vec![
        case("empty", &[]),
        case("other-kinds", &[&other[0], &other[1], &other[2]]),
        case("longest-record", &[&D, &longest, &channel(2, &V)]),
        case("longest-other-kind", &[&blank(LONGEST_RECORD, 65_535)]),
        case("last-description", &[&long, &D, &channel(5, &V)]),
        case("many-records", &[&many.repeat(400)]),
    ]
}

/// A frame under each of the long codes, and all of them in turns with D.
fn long_codes() -> Vec<(String, Vec<u8>)> {
    let mut cases = Vec::new();
    let mut turns = Vec::new();
    for n in LONG {
        let mut random = Random::new(1 << n);
        let d = samples::useful_description_of_kind_1(&mut random, n);
        let records = [d.clone(), clear(&mut random, &d, 1)].concat();
        cases.push(case(&format!("code-of-{}", 1 << n), &[&records]));
        turns.extend([records, D.to_vec(), channel(5, &V)].concat());
    }
    cases.push(case("long-codes-in-turns", &[&turns]));
    cases
}

/// A short stream with a record of every sort.
pub fn every_sort() -> Vec<u8> {
    let mut random = Random::new(4);
    let d = samples::useful_description(&mut random, 4);
    let code = describe(&d).expect("an accepted description");
    let clear = frame(&mut random, &d, &code, 20, 1);
    let refused = ["09 00 01 00 03 01 01 00 80", "08 00 04 00 03 01 01 00"].map(parse);
    [
        channel(2, &V), // refused 23
        D.to_vec(),
        channel(2, &V),
        channel(1, &V), // refused 16
        refused.concat(),
        D_WITH_START.to_vec(),
        silence(1), // refused 16
        silence(2),
        blank(4, 7),
        blank(5, 2), // refused 24
        channel(5, &[0x20; 8]),
        blank(40, 65_535),
        channel(2, &V),
        d,
        channel(1, &clear),
        channel(0, &clear), // refused 14
        channel(1, &clear[1..]),
        blank(4, 1),
        blank(6, 0),
    ]
    .concat()
}

/// A stream of skipped records for which exactly `length` bytes are printed. A line has 7 bytes;
/// the first ones have 8, as many as are needed.
pub fn printing(length: usize) -> Vec<u8> {
    let printed = |count: usize| 7 * count + format!("end {count}\n").len();
    let mut counts = (0..length / 7).rev();
    let count = counts.find(|&count| printed(count) <= length);
    let count = count.expect("room for the last line");
    let longer = length - printed(count);
    [
        blank(4, 10).repeat(longer),
        blank(4, 7).repeat(count - longer),
    ]
    .concat()
}

/// A stream of `frames` frames whose lines are the longest ones, behind `before` short lines.
pub fn long_lines(before: usize, frames: usize) -> Vec<u8> {
    let mut random = Random::new(before as u64);
    let d = record(LARGEST_N, 1, 1, &[true; LONGEST]);
    let some = [1, 2, 3].map(|_| clear(&mut random, &d, 1));
    let frames = some.iter().cycle().take(frames).cloned();
    let stream = [blank(4, 7).repeat(before), d].into_iter().chain(frames);
    stream.flatten().collect()
}

/// A random stream of up to `count` records, with codes of these n; one of four is cut at a random
/// place.
pub fn random_stream(random: &mut Random, layers: RangeInclusive<usize>, count: usize) -> Vec<u8> {
    let mut held = D.to_vec();
    let mut stream = Vec::new();
    for _ in 0..random.below(count + 1) {
        let n = random.between(*layers.start(), *layers.end());
        let next = random_record(random, n, &held);
        if describe(&next).is_ok() {
            held = next.clone();
        }
        stream.extend(next);
    }
    if random.below(4) == 0 {
        stream.truncate(random.below(stream.len() + 1));
    }
    stream
}

/// A record of any sort; a description is of this n, and `held` is the one that a frame is made for.
fn random_record(random: &mut Random, n: usize, held: &[u8]) -> Vec<u8> {
    let code = describe(held).expect("an accepted description");
    match random.below(16) {
        0..4 => samples::useful_description(random, n),
        4 => {
            let refusal = [4, 5, 6, 7, 25, 8][random.below(6)];
            samples::refused_description(random, refusal)
        }
        5 => {
            let kinds = [7, 65_536][random.below(2)];
            blank(random.between(4, 40), random.below(kinds) as u16)
        }
        6 => {
            let length = random.between(1, 12);
            random.bytes(length)
        }
        7 => blank(random.between(4, 6), 2),
        8 => channel(1, &random.bytes(code.size())),
        9 => channel(random.between(1, 4) as u16, &vec![0; code.size()]),
        _ => {
            let noise = random.below(10);
            let limit = random_limit(random, &code);
            channel(limit, &frame(random, held, &code, 7, noise))
        }
    }
}

/// A trial limit of up to 40, now and then the first that is refused.
fn random_limit(random: &mut Random, code: &Code) -> u16 {
    let beyond = code.information() + 2;
    match random.below(8) {
        0 => beyond as u16,
        _ => random.below(beyond.min(41)) as u16,
    }
}
