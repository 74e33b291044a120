//! How much stack one call takes for the longest code, beside what include/polar.h says.

use host::reference::description::{describe, record, with_start};
use host::reference::packing::packed_length;
use host::reference::sets::{limits, MOST_FLIPS};
use host::reference::sizes::{HEARING_SIZE, LARGEST_N, LONGEST, LONGEST_BYTES};
use host::testing::files::text;
use host::testing::library;
use host::testing::random::Random;
use host::testing::samples;
use host::testing::stack::{on_stack, stack_of, KIB};

/// The most that a call takes.
const ENCODE: usize = 8 * KIB;
const RESUME: usize = 48 * KIB;
const DECODERS: usize = 70 * KIB;
const SET_DECODERS: usize = 90 * KIB;
const HEARINGS: usize = 70 * KIB;
const PREVIEW: usize = 74 * KIB;

/// What a thread may take for its own start.
const THREAD: usize = 16 * KIB;

/// That a call keeps to a limit, as measured, and then on a thread that has little more.
fn keeps_to(limit: usize, name: &str, mut call: impl FnMut() + Send) {
    let taken = stack_of(&mut call);
    println!("{name}: {taken} bytes of stack");
    assert!(taken <= limit, "{name}: {taken} bytes of stack");
    on_stack(limit + THREAD, call);
}

/// The longest codes with few, some and all information indices, in both kinds.
fn descriptions() -> Vec<Vec<u8>> {
    let masks = [17, LONGEST / 2, LONGEST].map(|ones| samples::useful_mask(LONGEST, ones));
    let of = |mask: &Vec<bool>| {
        let d = record(LARGEST_N, 16, 0x8005, mask);
        [with_start(&d, 0xFFFF), d]
    };
    masks.iter().flat_map(of).collect()
}

#[test]
fn encode() {
    let mut random = Random::new(1);
    for d in descriptions() {
        let k = describe(&d).expect("a code").k;
        let payload = samples::payload(&mut random, k);
        let mut codeword = vec![0; LONGEST_BYTES];
        keeps_to(ENCODE, &format!("encode, k = {k}"), || {
            assert_eq!(library::encode(&d, &payload, &mut codeword), 0);
        });
    }
}

#[test]
fn resume() {
    let mut random = Random::new(2);
    for d in descriptions() {
        let channel = samples::channel(&mut random, LONGEST, 31);
        let half = LONGEST / 2;
        for q in [0, 1, half - 1, half, half + 1, LONGEST - 1, LONGEST] {
            let prefix = vec![0; q];
            let mut bits = vec![0; LONGEST];
            keeps_to(RESUME, &format!("resume, q = {q}"), || {
                let answer = library::resume(&d, &channel, &prefix, &mut bits);
                assert_eq!(answer & 0xFF, 0);
            });
        }
    }
}

#[test]
fn decoders() {
    let all: [(&str, library::Decoder); 3] = [
        ("full", library::decode_full),
        ("half", library::decode_half),
        ("restarted", library::decode_restarted),
    ];
    let mut random = Random::new(3);
    for d in descriptions() {
        let channel = samples::channel(&mut random, LONGEST, 31);
        for (name, decode) in all {
            decoder(name, decode, &d, &channel);
        }
    }
}

/// A decoder at the least limits and at the largest.
fn decoder(name: &str, decode: library::Decoder, d: &[u8], channel: &[u8]) {
    at_limits(DECODERS, name, d, |limit, payload| {
        decode(d, channel, limit, payload)
    });
}

/// That calls at the least trial limits and at the largest keep to a limit.
fn at_limits(most: usize, name: &str, d: &[u8], decode: impl Fn(u32, &mut [u8]) -> u64 + Sync) {
    let code = describe(d).expect("a code");
    let mut payload = vec![0; packed_length(code.k)];
    for limit in [1, 2, code.information() as u32 + 1] {
        keeps_to(most, &format!("{name}, T = {limit}"), || {
            let answer = decode(limit, &mut payload);
            assert!([0, 16].contains(&(answer & 0xFF)));
        });
    }
}

#[test]
fn hearings() {
    let mut random = Random::new(5);
    for d in descriptions() {
        let channel = samples::channel(&mut random, LONGEST, 31);
        let mut state = vec![0; HEARING_SIZE];
        keeps_to(HEARINGS, "open", || {
            assert_eq!(library::hearing_open(&d, &mut state), 0);
        });
        keeps_to(HEARINGS, "add", || {
            assert_eq!(library::hearing_add(&mut state, &channel) & 0xFF, 0);
        });
        decode_hearing(&d, &state);
        keeps_to(HEARINGS, "clear", || {
            assert_eq!(library::hearing_clear(&mut state), 0);
        });
        decode_hearing(&d, &state);
    }
}

fn decode_hearing(d: &[u8], state: &[u8]) {
    let both: [(&str, library::HearingDecoder); 2] = [
        ("full, of a hearing", library::hearing_decode_full),
        ("restarted, of a hearing", library::hearing_decode_restarted),
    ];
    for (name, decode) in both {
        at_limits(HEARINGS, name, d, |limit, payload| {
            decode(state, limit, payload)
        });
    }
}

/// On a hearing that is fresh, and on one that holds a vector.
#[test]
fn preview() {
    let mut random = Random::new(6);
    for d in descriptions() {
        let [first, second] = [(); 2].map(|_| samples::channel(&mut random, LONGEST, 31));
        let mut state = vec![0; HEARING_SIZE];
        assert_eq!(library::hearing_open(&d, &mut state), 0);
        preview_on(&d, &state, &first);
        assert_eq!(library::hearing_add(&mut state, &first) & 0xFF, 0);
        preview_on(&d, &state, &second);
    }
}

fn preview_on(d: &[u8], state: &[u8], channel: &[u8]) {
    at_limits(PREVIEW, "preview", d, |limit, payload| {
        library::hearing_preview(state, channel, limit, payload)
    });
}

#[test]
fn decoders_with_flip_sets() {
    let all: [(&str, library::SetDecoder); 3] = [
        ("full", library::decode_sets_full),
        ("half", library::decode_sets_half),
        ("restarted", library::decode_sets_restarted),
    ];
    let mut random = Random::new(4);
    for d in descriptions() {
        let channel = samples::channel(&mut random, LONGEST, 31);
        for (name, decode) in all {
            set_decoder(name, decode, &d, &channel);
        }
    }
}

/// The same for each number of flips.
fn set_decoder(name: &str, decode: library::SetDecoder, d: &[u8], channel: &[u8]) {
    let code = describe(d).expect("a code");
    let mut payload = vec![0; packed_length(code.k)];
    for most_flips in MOST_FLIPS {
        for limit in [1, 2, *limits(&code, most_flips).end()] {
            let name = format!("{name}, w = {most_flips}, T = {limit}");
            keeps_to(SET_DECODERS, &name, || {
                let answer = decode(d, channel, most_flips, limit, &mut payload);
                assert!([0, 16].contains(&(answer & 0xFF)));
            });
        }
    }
}

#[test]
fn header_and_readme_say_so() {
    let [encode, resume, decoders, set_decoders, hearings, preview] =
        [ENCODE, RESUME, DECODERS, SET_DECODERS, HEARINGS, PREVIEW].map(|most| most / KIB);
    let others = format!(
        "{decoders} KiB for the decoders, {set_decoders} KiB for those by sets, {hearings} KiB for hearings, \
         and {preview} KiB for preview"
    );
    let words =
        format!("at most {encode} KiB of stack for encode, {resume} KiB for resume, {others}");
    let header = text("include/polar.h").replace("\n * ", " ");
    assert!(header.contains(&words), "no `{words}`");
    let words = format!(
        "at most {encode} KiB of stack for `polar_encode`, {resume} KiB for `polar_resume`, {others}"
    );
    let readme = text("README.md").replace('\n', " ");
    assert!(readme.contains(&words), "no `{words}`");
}
