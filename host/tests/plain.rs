//! The plain codecs that the benchmark compares with, held to the reference.

use host::bench::{others, Codec};
use host::reference::description::LONGEST_DESCRIPTION;
use host::reference::encode::encode;
use host::reference::flip::{decode, Accepted};
use host::reference::hearing::state::{add_in, clear_in, decode_in, open_in, preview_in};
use host::reference::number::{
    decode_number, encode_number, hearing_number, quantise_numbers, resume_number,
};
use host::reference::quantise::quantise;
use host::reference::refusal::Refusal;
use host::reference::restart::Restart;
use host::reference::resume::resume;
use host::reference::sets::decode_sets;
use host::reference::sizes::{HEARING_SIZE, LAYERS};
use host::testing::call::Call;
use host::testing::library::{Decoder, HearingDecoder, SetDecoder};
use host::testing::random::Random;
use host::testing::samples;

/// A codec's decoders.
const DECODERS: [fn(&Codec) -> Decoder; 3] = [
    |codec| codec.decode_full,
    |codec| codec.decode_half,
    |codec| codec.decode_restarted,
];

/// Those with flip sets.
const SET_DECODERS: [fn(&Codec) -> SetDecoder; 3] = [
    |codec| codec.decode_sets_full,
    |codec| codec.decode_sets_half,
    |codec| codec.decode_sets_restarted,
];

/// Those of hearings, full and restarted.
const HEARING_DECODERS: [fn(&Codec) -> HearingDecoder; 2] = [
    |codec| codec.hearing_decode_full,
    |codec| codec.hearing_decode_restarted,
];

/// Each operation on these inputs, whether they suit each other or not.
fn check(call: &Call) {
    let Call {
        description: d,
        payload,
        channel,
        prefix,
        room,
        ..
    } = call;
    let [mut codeword, mut bits, _] = room.map(|length| vec![0xEE; length]);
    let encoded = encode_number(&encode(d, payload, &mut codeword));
    let resumed = resume_number(&resume(d, channel, prefix, &mut bits));
    for codec in others() {
        let name = codec.name;
        let [mut first, mut second, _] = room.map(|length| vec![0xEE; length]);
        let answer = (codec.encode)(d, payload, &mut first);
        assert_eq!((answer, &first), (encoded, &codeword), "{name}: {d:02x?}");
        let answer = (codec.resume)(d, channel, prefix, &mut second);
        assert_eq!((answer, &second), (resumed, &bits), "{name}: {d:02x?}");
    }
    let limit = call.limit;
    for (restart, decoder) in Restart::ALL.into_iter().zip(DECODERS) {
        let reference = |output: &mut [u8]| decode(restart, d, channel, limit, output);
        compare(call, reference, |codec, output| {
            decoder(codec)(d, channel, limit, output)
        });
    }
}

/// Decoding with flip sets likewise.
fn check_sets(call: &Call) {
    let (d, channel) = (&call.description, &call.channel);
    let (most_flips, limit) = (call.most_flips, call.limit);
    for (restart, decoder) in Restart::ALL.into_iter().zip(SET_DECODERS) {
        let reference =
            |output: &mut [u8]| decode_sets(restart, d, channel, most_flips, limit, output);
        compare(call, reference, |codec, output| {
            decoder(codec)(d, channel, most_flips, limit, output)
        });
    }
}

/// Holds a decoder of each codec to the reference's.
fn compare(
    call: &Call,
    reference: impl Fn(&mut [u8]) -> Result<Accepted, Refusal>,
    decode: impl Fn(&Codec, &mut [u8]) -> u64,
) {
    let before = vec![0xEE; call.room[2]];
    let mut payload = before.clone();
    let expected = decode_number(&reference(&mut payload));
    for codec in others() {
        let mut output = before.clone();
        let answer = decode(&codec, &mut output);
        let (name, d) = (codec.name, &call.description);
        assert_eq!((answer, &output), (expected, &payload), "{name}: {d:02x?}");
    }
}

/// Each call on the state of a hearing likewise; gives the state after an add.
fn check_hearing(call: &Call, state: &[u8]) -> Vec<u8> {
    let (d, channel, limit) = (&call.description, &call.channel, call.limit);
    let restarts = [Restart::Full, Restart::AfterFlip];
    for (restart, decoder) in restarts.into_iter().zip(HEARING_DECODERS) {
        let reference = |output: &mut [u8]| decode_in(restart, state, limit, output);
        compare(call, reference, |codec, output| {
            decoder(codec)(state, limit, output)
        });
    }
    let preview = |output: &mut [u8]| preview_in(state, channel, limit, output);
    compare(call, preview, |codec, output| {
        (codec.hearing_preview)(state, channel, limit, output)
    });
    let open = |state: &mut [u8]| open_in(d, state);
    let add = |state: &mut [u8]| add_in(state, channel);
    changed(state, open, |codec, state| (codec.hearing_open)(d, state));
    changed(state, clear_in, |codec, state| (codec.hearing_clear)(state));
    changed(state, add, |codec, state| {
        (codec.hearing_add)(state, channel)
    })
}

/// The state after a call of the reference; that after a call of each codec is the same, and so is
/// the answer.
fn changed(
    before: &[u8],
    reference: impl Fn(&mut [u8]) -> Result<usize, Refusal>,
    call: impl Fn(&Codec, &mut [u8]) -> u64,
) -> Vec<u8> {
    let mut expected = before.to_vec();
    let number = hearing_number(&reference(&mut expected));
    for codec in others() {
        let mut state = before.to_vec();
        let answer = call(&codec, &mut state);
        assert_eq!(answer, number, "{}: {before:02x?}", codec.name);
        assert!(state == expected, "{}: {before:02x?}", codec.name);
    }
    expected
}

/// Changes a byte of a state, or its size: mostly into what no list of calls leaves.
fn spoil_state(random: &mut Random, state: &mut Vec<u8>, n: usize) {
    let place = match random.below(6) {
        0 => return state.resize([HEARING_SIZE - 1, HEARING_SIZE + 1][random.below(2)], 0),
        1 => LONGEST_DESCRIPTION,
        2 => random.below(12),
        3 => random.below(LONGEST_DESCRIPTION),
        4 => LONGEST_DESCRIPTION + 1 + random.below(1 << n),
        _ => random.below(HEARING_SIZE),
    };
    state[place] = [0, 1, 31, 32, 224, 225, 255, random.byte()][random.below(8)];
}

/// Codewords under noise, or any values, and descriptions of both kinds; one input in three has a
/// fault.
#[test]
fn plain_codecs_agree_with_the_reference() {
    let mut random = Random::new(1);
    for n in LAYERS {
        for round in 0..(12_000 >> n).max(60) {
            let d = samples::useful_description(&mut random, n);
            let mut call = Call::new(&mut random, d, [4, 8, 12][round % 3]);
            call.spoil(&mut random);
            if random.below(24) == 0 {
                call.description = samples::any_refused_description(&mut random);
            }
            check(&call);
            check_sets(&call);
        }
    }
}

/// Sets of short codes, more trials than in other tests.
#[test]
fn plain_codecs_try_the_sets_of_the_reference() {
    let mut random = Random::new(5);
    for n in 3..=6 {
        for round in 0..20_000 >> n {
            let d = samples::useful_description(&mut random, n);
            let mut call = Call::new(&mut random, d, [10, 14, 18][round % 3]);
            if call.most_flips > 1 {
                call.limit = random.between(1, 100) as u32;
            }
            check_sets(&call);
        }
    }
}

/// Lists of adds, some with a fault; then a state whose count is 255, and one with a fault.
#[test]
fn plain_hearings_agree_with_the_reference() {
    let mut random = Random::new(6);
    for n in LAYERS {
        for round in 0..(8_000 >> n).max(30) {
            let d = samples::useful_description(&mut random, n);
            let mut state = random.bytes(HEARING_SIZE);
            let mut call = Call::new(&mut random, d.clone(), [8, 12, 16][round % 3]);
            open_in(&d, &mut state).expect("a hearing");
            for _ in 0..3 {
                state = check_hearing(&call, &state);
                call = Call::new(&mut random, d.clone(), 12);
                call.spoil(&mut random);
            }
            let mut full = state.clone();
            full[LONGEST_DESCRIPTION] = 255;
            check_hearing(&call, &full);
            spoil_state(&mut random, &mut state, n);
            check_hearing(&call, &state);
        }
    }
}

/// Each refusal of a description.
#[test]
fn plain_codecs_refuse_descriptions_as_the_reference() {
    let mut random = Random::new(3);
    let d = samples::useful_description(&mut random, 4);
    let mut call = Call::new(&mut random, d, 4);
    samples::for_refused_descriptions(4, 200, |_, d, _| {
        call.description = d.to_vec();
        check(&call);
        check_sets(&call);
        check_hearing(&call, &[0; HEARING_SIZE]);
    });
}

/// The bits of the peak, the two numbers as in `library::quantise`, and the output, by the
/// reference.
fn quantised(scale: f32, samples: &[f32], room: usize) -> (u32, [u64; 2], Vec<u8>) {
    let mut output = vec![0xEE; room];
    let (peak, numbers) = quantise_numbers(&quantise(scale, samples, &mut output));
    (peak.to_bits(), numbers, output)
}

/// Floats of any bits, or near the range of the levels; some lists have a fault.
#[test]
fn plain_quantisers_agree_with_the_reference() {
    let mut random = Random::new(2);
    for round in 0..4_000 {
        let any = |random: &mut Random| f32::from_bits(random.number() as u32);
        let near = |random: &mut Random| (random.below(1 << 20) as f32 / 512.0 - 1024.0) / 64.0;
        let mut samples: Vec<f32> = (0..random.below(70))
            .map(|_| match round % 2 {
                0 => near(&mut random),
                _ => Some(any(&mut random))
                    .filter(|y| !y.is_nan())
                    .unwrap_or(0.5),
            })
            .collect();
        let mut scale = [1.0, 0.5, 2.5, any(&mut random).abs()][random.below(4)];
        let mut room = samples.len();
        match random.below(20) {
            0 => scale = [0.0, -1.0, f32::INFINITY, f32::NAN][random.below(4)],
            1 => room += 1,
            2 => samples.iter_mut().skip(3).for_each(|y| *y = f32::NAN),
            _ => (),
        }
        let expected = quantised(scale, &samples, room);
        for codec in others() {
            let mut output = vec![0xEE; room];
            let mut numbers = [u64::from_ne_bytes([0xEE; 8]); 2];
            let peak = (codec.quantise)(scale, &samples, &mut output, &mut numbers);
            let result = (peak.to_bits(), numbers, output);
            assert_eq!(result, expected, "{}: {scale} {samples:?}", codec.name);
        }
    }
}
