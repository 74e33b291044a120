//! Calls of the library on buffers that are lent between guard bytes. Each gives the answer, and the
//! output after it.

use crate::testing::call::Call;
use crate::testing::guard::{lend_input, lend_output};
use crate::testing::library::{self, Decoder, SetDecoder};

pub fn encode(d: &[u8], payload: &[u8], before: &[u8]) -> (u64, Vec<u8>) {
    lend_input(d, |d| {
        lend_input(payload, |payload| {
            lend_output(before, |output| library::encode(d, payload, output))
        })
    })
}

pub fn resume(d: &[u8], channel: &[u8], prefix: &[u8], before: &[u8]) -> (u64, Vec<u8>) {
    lend_input(d, |d| {
        lend_input(channel, |channel| {
            lend_input(prefix, |prefix| {
                lend_output(before, |output| library::resume(d, channel, prefix, output))
            })
        })
    })
}

pub fn decode(
    by: impl FnOnce(&[u8], &[u8], u32, &mut [u8]) -> u64,
    d: &[u8],
    channel: &[u8],
    limit: u32,
    before: &[u8],
) -> (u64, Vec<u8>) {
    lend_input(d, |d| {
        lend_input(channel, |channel| {
            lend_output(before, |output| by(d, channel, limit, output))
        })
    })
}

pub fn decode_sets(
    by: SetDecoder,
    d: &[u8],
    channel: &[u8],
    most_flips: u32,
    limit: u32,
    before: &[u8],
) -> (u64, Vec<u8>) {
    let by = |d: &[u8], channel: &[u8], limit, output: &mut [u8]| {
        by(d, channel, most_flips, limit, output)
    };
    decode(by, d, channel, limit, before)
}

/// Encode, resume, the decoders and those with flip sets, each full and restarted, then both with half
/// restart, on the inputs of a call and a description.
pub fn answers(call: &Call, d: &[u8]) -> [(u64, Vec<u8>); 8] {
    let [codeword, bits, payload] = call.room.map(|length| vec![0xEE; length]);
    let (channel, most_flips, limit) = (&call.channel, call.most_flips, call.limit);
    let decode = |by: Decoder| self::decode(by, d, channel, limit, &payload);
    let decode_sets = |by| self::decode_sets(by, d, channel, most_flips, limit, &payload);
    [
        encode(d, &call.payload, &codeword),
        resume(d, channel, &call.prefix, &bits),
        decode(library::decode_full),
        decode(library::decode_restarted),
        decode_sets(library::decode_sets_full),
        decode_sets(library::decode_sets_restarted),
        decode(library::decode_half),
        decode_sets(library::decode_sets_half),
    ]
}
