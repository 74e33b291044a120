//! Silence, N zero values. Under a start other than 0 it fails trial 1 of all six decoders; when a later
//! trial of single flips accepts it is what the command `silence` prints.

use std::iter::successors;
use std::process::{Command, Output};

use host::reference::description::{describe, with_start, Code};
use host::reference::packing::packed_length;
use host::reference::sets::{limits, MOST_FLIPS};
use host::reference::sizes::LAYERS;
use host::silence::{first_accepted, run};
use host::testing::decoders::{check, ALL, REFERENCE};
use host::testing::files::repository;
use host::testing::lent;
use host::testing::library::{self, Decoder};
use host::testing::outcomes::Outcomes;
use host::testing::random::Random;
use host::testing::samples;
use host::testing::sets::{self, Lent};

/// The library's decoders on buffers between guard bytes.
const LENT_FULL: Decoder =
    |d, channel, limit, payload| decode_lent(library::decode_full, d, channel, limit, payload);
const LENT_HALF: Decoder =
    |d, channel, limit, payload| decode_lent(library::decode_half, d, channel, limit, payload);
const LENT_RESTARTED: Decoder =
    |d, channel, limit, payload| decode_lent(library::decode_restarted, d, channel, limit, payload);

/// Lends all that a decoder is given, and copies its output back.
fn decode_lent(by: Decoder, d: &[u8], channel: &[u8], limit: u32, payload: &mut [u8]) -> u64 {
    let (answer, after) = lent::decode(by, d, channel, limit, payload);
    payload.copy_from_slice(&after);
    answer
}

/// Gives descriptions of kind 4 whose start is not 0 to a test, more of the shorter codes.
fn for_starts(seed: u64, count: usize, mut test: impl FnMut(&mut Random, &[u8], &Code)) {
    let mut random = Random::new(seed);
    for n in LAYERS {
        for _ in 0..(count >> n).max(20) {
            let d = samples::description(&mut random, n);
            let start = samples::nonzero_start(&mut random, d[5].into());
            let d = with_start(&d, start);
            let code = describe(&d).expect("a code");
            test(&mut random, &d, &code);
        }
    }
}

/// Refusal 16 with T = 1 and n × N steps by all six decoders, the output as it was.
#[test]
fn silence_fails_trial_1_under_a_start() {
    for_starts(1, 100_000, |random, d, code| {
        let zeros = vec![0; code.size()];
        let before = random.bytes(packed_length(code.k));
        let steps = ((code.n << code.n) as u64) << 32;
        let failed = (steps | 1 << 8 | 16, before.clone());
        for decoder in ALL {
            assert_eq!(decoder.run(d, &zeros, 1, &before), failed, "{d:02x?}");
        }
        for most_flips in MOST_FLIPS {
            let of = by_sets(d, &zeros, most_flips, 1);
            for decoder in sets::ALL {
                assert_eq!(decoder.run(of, &before), failed, "{of:02x?}");
            }
        }
    });
}

/// What the decoders by sets are lent.
fn by_sets<'a>(d: &'a [u8], channel: &'a [u8], most_flips: u32, limit: u32) -> Lent<'a> {
    Lent {
        description: d,
        channel,
        most_flips,
        limit,
    }
}

/// The library answers as the reference does, and never with trial 1.
#[test]
fn silence_under_a_start_and_larger_limits() {
    let mut outcomes = Outcomes::default();
    for_starts(2, 16_000, |random, d, code| {
        let zeros = vec![0; code.size()];
        let before = random.bytes(packed_length(code.k));
        let most = code.information() + 1;
        for limit in [1, 2, 3, random.between(1, most.min(40)), most.min(60)] {
            outcomes.count(check(d, &zeros, limit as u32, &before));
        }
    });
    outcomes.never_on_trial_1(1_000);
}

/// With each number of flips, and fewer trials of long codes.
#[test]
fn silence_under_a_start_by_sets() {
    let mut outcomes = Outcomes::default();
    for_starts(5, 16_000, |random, d, code| {
        let zeros = vec![0; code.size()];
        let before = random.bytes(packed_length(code.k));
        let some = if code.n > 8 { 6 } else { 40 };
        for most_flips in MOST_FLIPS {
            let most = *limits(code, most_flips).end();
            for limit in [1, 2, 3, most.min(random.between(4, some) as u32)] {
                let of = by_sets(d, &zeros, most_flips, limit);
                outcomes.count(sets::check(of, &before).0);
            }
        }
    });
    outcomes.never_on_trial_1(1_000);
}

/// The starts with which silence passes trials 2, 3 and so on. Zeros stay zeros in a pass, so the
/// message of trial t is its flipped bit alone, z^(K + 1 − t), and it passes where that equals
/// start · z^k modulo the divisor: with the start z^(r − 1), which is then divided by z each time.
fn passing_starts(code: &Code) -> Vec<u32> {
    let divisor = 1 << code.r | u32::from(code.polynomial);
    let by_z = |start: &u32| Some((start ^ (start & 1) * divisor) >> 1);
    let starts = successors(Some(1 << (code.r - 1)), by_z);
    starts.take(code.information()).collect()
}

/// With each start of a small width, and with some of others.
#[test]
fn silence_is_accepted_where_the_powers_of_z_say() {
    let mut random = Random::new(3);
    for n in LAYERS {
        for _ in 0..(2_000 >> n).max(2) {
            let d = samples::description(&mut random, n);
            check_trials(&mut random, &d);
        }
    }
}

/// The trial that accepts silence, with each of some starts.
fn check_trials(random: &mut Random, d: &[u8]) {
    let code = describe(d).expect("a code");
    let passing = passing_starts(&code);
    let all = 1 << code.r;
    let some = [0; 8].map(|_| passing[random.below(passing.len())]);
    let others = (0..all).step_by(1 + all as usize / 24);
    for start in others.chain(some) {
        let place = passing.iter().position(|&passing| passing == start);
        let expected = match start {
            0 => Some(1),
            _ => place.map(|place| place as u32 + 2),
        };
        let d = with_start(d, start as u16);
        let accepted = first_accepted(LENT_RESTARTED, &d);
        assert_eq!(accepted.map(|found| found.trial), expected, "{d:02x?}");
    }
}

#[test]
fn the_search_agrees_with_the_reference() {
    let mut random = Random::new(4);
    for n in LAYERS {
        for _ in 0..(800 >> n).max(1) {
            let d = samples::description(&mut random, n);
            let by_library = first_accepted(LENT_RESTARTED, &d);
            assert_eq!(by_library, first_accepted(REFERENCE, &d), "{d:02x?}");
            for decoder in [LENT_FULL, LENT_HALF] {
                assert_eq!(by_library, first_accepted(decoder, &d), "{d:02x?}");
            }
        }
    }
}

/// What the command prints for one word.
fn printed(word: &str) -> String {
    run(&[word.to_string()]).expect("a report")
}

#[test]
fn the_command_on_d() {
    let plain = printed("09 00 01 00 03 01 01 00 E8");
    assert!(plain.contains("is accepted on trial 1,"), "{plain}");
    let start = printed("0B0004000301010001 00 E8");
    assert!(start.contains("is accepted on trial 2,"), "{start}");
    assert!(start.contains("as payload 80;"), "{start}");
    let [plain, start] = [&plain, &start].map(|text| text.split_once("\n\n").expect("a table").1);
    assert_eq!(plain, start, "the other starts");
    assert!(plain.ends_with("; 0001 does where T is below 2.\n"));
}

/// Each of the 51 later trials has a start of its own.
#[test]
fn the_command_on_the_recording() {
    let path = repository().join("recordings/run.bin");
    let text = printed(&path.display().to_string());
    assert!(text.contains("all 2048 were tried"), "{text}");
    assert!(text.contains("\nnever          1996  0003 "), "{text}");
}

/// The program itself, with these words.
fn program(words: &[&str]) -> Output {
    let mut program = Command::new(env!("CARGO_BIN_EXE_silence"));
    program.args(words).output().expect("the program")
}

#[test]
fn the_program() {
    let output = program(&["09", "00", "01", "00", "0301", "0100", "E8"]);
    let text = String::from_utf8(output.stdout).expect("text");
    assert!(output.status.success());
    assert_eq!(text, printed("09 00 01 00 03 01 01 00 E8"));
    for (words, message) in [
        (&["0B 00 04 00 03 01 01 00 02 00 E8"][..], "number 25"),
        (&["08 00 04 00 03 01 01 00"], "number 1;"),
        (&["no-such-file"], "usage: silence DESCRIPTION"),
        (&[], "usage: silence DESCRIPTION"),
    ] {
        let output = program(words);
        let said = String::from_utf8(output.stderr).expect("text");
        assert_eq!(output.status.code(), Some(2), "{said}");
        assert!(said.contains(message) && output.stdout.is_empty(), "{said}");
    }
}
