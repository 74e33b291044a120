//! What the operations are lent, all for one description.

use std::ops::RangeInclusive;

use crate::reference::description::{describe, mask_of};
use crate::reference::encode::codeword;
use crate::reference::packing::{pack, packed_length};
use crate::testing::random::Random;
use crate::testing::samples;

/// The inputs of encode, of resume and of the decoders.
pub struct Call {
    pub description: Vec<u8>,
    pub payload: Vec<u8>,
    pub channel: Vec<u8>,
    pub prefix: Vec<u8>,
    pub most_flips: u32,
    pub limit: u32,
    /// The bytes for the codeword, for the bits that resume writes, for the decoded payload.
    pub room: [usize; 3],
}

impl Call {
    /// Inputs that suit an accepted description: a payload, its codeword under noise, any prefix, any
    /// number of flips, a trial limit of at most 13.
    pub fn new(random: &mut Random, description: Vec<u8>, noise: usize) -> Call {
        let code = describe(&description).expect("a code");
        let size = code.size();
        let payload = random.bits(code.k);
        let x = codeword(&code, mask_of(&description), &payload);
        let q = random.between(0, size);
        Call {
            payload: pack(&payload),
            channel: samples::noisy(random, &x, 12, noise),
            prefix: samples::prefix(random, &description, q),
            most_flips: samples::most_flips(random),
            limit: random.between(1, 13.min(code.information() + 1)) as u32,
            room: [size / 8, size, packed_length(code.k)],
            description,
        }
    }

    /// Puts a fault into one of the inputs beside the description, in one call of three.
    pub fn spoil(&mut self, random: &mut Random) {
        let size = self.channel.len();
        match random.below(27) {
            0 => self.payload = random.bytes(self.payload.len()),
            1 => self.payload.push(0),
            2 => self.channel[random.below(size)] = random.byte(),
            3 => self.channel.push(0),
            4 => self.prefix.resize(size + 1, 0),
            5 => self.prefix.push(random.byte() % 4),
            6 => self.limit = [0, size as u32 + 2][random.below(2)],
            7 => self.room[random.below(3)] += 1,
            8 => self.most_flips = samples::wrong_most_flips(random),
            _ => (),
        }
    }
}

/// Gives calls for descriptions of kind 1 to a test, some with a fault; more of the shorter codes.
pub fn for_calls(
    seed: u64,
    layers: RangeInclusive<usize>,
    mut test: impl FnMut(&mut Random, Call),
) {
    let mut random = Random::new(seed);
    for n in layers {
        for round in 0..(40_000 >> n).max(300) {
            let d = match round % 2 {
                0 => samples::useful_description_of_kind_1(&mut random, n),
                _ => samples::description_of_kind_1(&mut random, n),
            };
            let mut call = Call::new(&mut random, d, [0, 4, 8, 12][round % 4]);
            call.spoil(&mut random);
            test(&mut random, call);
        }
    }
}
