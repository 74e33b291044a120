//! Cabs that send a frame again and again, and the calls that their base makes on a hearing of it.

use crate::reference::description::{describe, mask_of, Code, REFUSALS};
use crate::reference::encode::codeword;
use crate::reference::hearing::MOST_HEARINGS;
use crate::reference::packing::{pack, packed_length};
use crate::testing::faulty::Faulty;
use crate::testing::hearing::{Call, BOTH};
use crate::testing::random::Random;
use crate::testing::samples;

/// Faults of adds, of decoding, and of previews: alone, and of two refusals.
const OF_ADD: [&[usize]; 3] = [&[12], &[13], &[13, 12]];
const OF_DECODE: [&[usize]; 3] = [&[14], &[15], &[15, 14]];
const OF_PREVIEW: [&[usize]; 8] = [
    &[12],
    &[13],
    &[13, 12],
    &[14],
    &[15],
    &[15, 14],
    &[14, 12],
    &[15, 13],
];

/// A description, the frame that is sent under it, and how it is heard.
pub struct Cab {
    pub description: Vec<u8>,
    pub payload: Vec<u8>,
    codeword: Vec<u8>,
    strength: usize,
    noise: usize,
}

impl Cab {
    /// Noise may drown a single hearing.
    pub fn new(random: &mut Random, description: Vec<u8>) -> Cab {
        let code = describe(&description).expect("a code");
        let payload = random.bits(code.k);
        let strength = random.between(2, 12);
        Cab {
            codeword: codeword(&code, mask_of(&description), &payload),
            payload: pack(&payload),
            noise: strength * random.between(2, 12) / 8,
            strength,
            description,
        }
    }

    pub fn code(&self) -> Code {
        describe(&self.description).expect("a code")
    }

    /// Its frame, as it is heard.
    pub fn heard(&self, random: &mut Random) -> Vec<u8> {
        samples::noisy(random, &self.codeword, self.strength, self.noise)
    }

    /// Its frame mostly, or else any values, small ones, zeros.
    fn vector(&self, random: &mut Random) -> Vec<u8> {
        let size = self.codeword.len();
        match random.below(8) {
            0 => samples::channel(random, size, 31),
            1 => samples::channel(random, size, 2),
            2 => vec![0; size],
            _ => self.heard(random),
        }
    }

    /// Inputs of a call without a fault. Long codes get few trials.
    pub fn lent(&self, random: &mut Random) -> Faulty {
        let code = self.code();
        let most = if code.n > 6 { 10 } else { usize::MAX };
        Faulty {
            description: self.description.clone(),
            channel: self.vector(random),
            most_flips: 1,
            limit: random.between(1, most.min(code.information() + 1)) as u32,
            before: random.bytes(packed_length(code.k)),
            state: vec![],
        }
    }

    /// The same with faults.
    fn wrong(&self, random: &mut Random, faults: &[usize]) -> Faulty {
        let mut lent = self.lent(random);
        for &fault in faults {
            lent.put_fault(random, fault);
        }
        lent
    }

    pub fn open(&self) -> Call {
        Call::Open(self.description.clone())
    }

    pub fn add(&self, random: &mut Random) -> Call {
        Call::Add(self.vector(random))
    }

    pub fn wrong_add(&self, random: &mut Random, faults: &[usize]) -> Call {
        Call::Add(self.wrong(random, faults).channel)
    }

    pub fn decode(&self, random: &mut Random) -> Call {
        self.wrong_decode(random, &[])
    }

    fn wrong_decode(&self, random: &mut Random, faults: &[usize]) -> Call {
        let lent = self.wrong(random, faults);
        Call::Decode(BOTH[random.below(2)], lent.limit, lent.before)
    }

    pub fn preview(&self, random: &mut Random) -> Call {
        self.wrong_preview(random, &[])
    }

    pub fn wrong_preview(&self, random: &mut Random, faults: &[usize]) -> Call {
        Call::preview(&self.wrong(random, faults))
    }

    pub fn refused_preview(&self, random: &mut Random) -> Call {
        let faults = OF_PREVIEW[random.below(OF_PREVIEW.len())];
        self.wrong_preview(random, faults)
    }

    /// A call that is refused, but for 16.
    fn refused(&self, random: &mut Random) -> Call {
        let which = random.below(3);
        match random.below(10) {
            0..=2 => self.wrong_add(random, OF_ADD[which]),
            3..=5 => self.wrong_decode(random, OF_DECODE[which]),
            6..=8 => self.refused_preview(random),
            _ => {
                let refusal = REFUSALS[random.below(REFUSALS.len())];
                Call::Open(samples::refused_description(random, refusal))
            }
        }
    }

    /// 300 calls of all exports.
    pub fn mixed_calls(&self, random: &mut Random) -> Vec<Call> {
        let call = |_| match random.below(20) {
            0 => self.open(),
            1 => Call::Clear,
            2..=8 => self.add(random),
            9..=12 => self.decode(random),
            13..=16 => self.preview(random),
            _ => self.refused(random),
        };
        let mut calls = vec![self.open()];
        calls.extend((1..300).map(call));
        calls
    }

    /// Fewer than 300 calls that fill a hearing, with other calls between the adds, and go on.
    pub fn filling_calls(&self, random: &mut Random) -> Vec<Call> {
        let mut calls = vec![self.open()];
        for count in 1..=MOST_HEARINGS {
            calls.push(self.add(random));
            match count % 30 {
                0 => calls.push(self.decode(random)),
                10 => calls.push(self.preview(random)),
                20 => calls.push(self.refused(random)),
                _ => (),
            }
        }
        calls.extend(self.calls_on_a_full_hearing(random));
        calls
    }

    fn calls_on_a_full_hearing(&self, random: &mut Random) -> [Call; 18] {
        [
            self.preview(random),
            self.add(random),
            self.wrong_add(random, &[12]),
            self.wrong_add(random, &[13]),
            self.wrong_add(random, &[13, 12]),
            self.decode(random),
            self.refused(random),
            self.refused_preview(random),
            self.wrong_preview(random, &[15, 14]),
            Call::Add(vec![0; self.codeword.len()]),
            self.decode(random),
            Call::Clear,
            self.decode(random),
            self.preview(random),
            self.wrong_add(random, &[13]),
            self.add(random),
            self.add(random),
            self.decode(random),
        ]
    }
}
