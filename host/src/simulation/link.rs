//! One code at one Eb/N0: a frame's way from a random payload to the answer of a decoder.

use crate::reference::packing::packed_length;
use crate::reference::sizes::HEARING_SIZE;
use crate::simulation::decoder::decode;
use crate::simulation::noise::fill_normal;
use crate::simulation::tally::Outcome;
use crate::simulation::{Codes, Flips, Restart, Setting, DEPTH};
use crate::testing::library;
use crate::testing::random::Random;

/// The factor of the quantiser's scale that makes a sample its log-likelihood ratio.
pub const USUAL: f32 = 1.0;

/// A payload that was sent, and the channel values of its codeword after the noise.
pub struct Frame {
    pub payload: Vec<u8>,
    pub channel: Vec<u8>,
}

/// A payload that was sent several times, and the samples of its codeword after each time's noise.
pub struct Repeated {
    pub payload: Vec<u8>,
    pub hearings: Vec<Vec<f32>>,
}

pub struct Link {
    description: Vec<u8>,
    k: usize,
    /// The standard deviation of the noise; a bit is sent as 1 or −1.
    deviation: f64,
    scale: f32,
    seed: u64,
}

impl Link {
    pub fn new(codes: Codes, setting: &Setting, decibels: f64) -> Self {
        let ratio = ratio(setting.k, decibels);
        Link {
            description: codes.description(setting),
            k: setting.k,
            deviation: (2.0 / ratio).sqrt(),
            scale: ratio as f32,
            seed: Random::new(setting.k as u64).number() ^ decibels.to_bits(),
        }
    }

    /// Sends a frame; its number alone decides payload and noise.
    pub fn frame(&self, number: u64) -> Frame {
        let Repeated { payload, hearings } = self.repeated(number, 1);
        let channel = self.quantised(USUAL, &hearings[0]);
        Frame { payload, channel }
    }

    /// Sends a frame several times; the first is that of `frame`.
    pub fn repeated(&self, number: u64, times: usize) -> Repeated {
        let seed = Random::new(self.seed.wrapping_add(number)).number();
        let mut random = Random::new(seed);
        let payload = random.bytes(self.k / 8);
        let codeword = self.codeword(&payload);
        let hearings = (0..times).map(|_| self.received(&codeword, &mut random));
        Repeated {
            hearings: hearings.collect(),
            payload,
        }
    }

    fn codeword(&self, payload: &[u8]) -> [u8; (1 << DEPTH) / 8] {
        let mut codeword = [0; (1 << DEPTH) / 8];
        let answer = library::encode(&self.description, payload, &mut codeword);
        assert_eq!(answer, 0, "a codeword");
        codeword
    }

    /// The samples of a codeword after the noise.
    fn received(&self, codeword: &[u8], random: &mut Random) -> Vec<f32> {
        let mut noise = [0.0; 1 << DEPTH];
        fill_normal(random, &mut noise);
        let sample = |(index, noise): (usize, &f64)| {
            let bit = codeword[index / 8] >> (7 - index % 8) & 1;
            (1.0 - 2.0 * f64::from(bit) + self.deviation * noise) as f32
        };
        noise.iter().enumerate().map(sample).collect()
    }

    /// The channel values of samples, by a factor of the quantiser's scale.
    fn quantised(&self, factor: f32, samples: &[f32]) -> Vec<u8> {
        let mut channel = vec![0; samples.len()];
        let mut numbers = [0; 2];
        library::quantise(factor * self.scale, samples, &mut channel, &mut numbers);
        assert_eq!(numbers[0], 0, "channel values");
        channel
    }

    /// Decodes a frame with the trial limit of document 000.
    pub fn decoded(&self, flips: Flips, restart: Restart, frame: &Frame) -> Outcome {
        self.decoded_within(flips.limit(), flips, restart, frame)
    }

    pub fn decoded_within(
        &self,
        limit: u32,
        flips: Flips,
        restart: Restart,
        frame: &Frame,
    ) -> Outcome {
        let mut payload = vec![0; packed_length(self.k)];
        let answer = decode(
            (flips, restart),
            limit,
            &self.description,
            &frame.channel,
            &mut payload,
        );
        Outcome::of(answer, payload)
    }

    /// Adds up hearings by a factor of the quantiser's scale, and decodes the sums with the trial
    /// limit of document 000.
    pub fn combined(&self, flips: Flips, factor: f32, hearings: &[Vec<f32>]) -> Outcome {
        let mut state = [0; HEARING_SIZE];
        let answer = library::hearing_open(&self.description, &mut state);
        assert_eq!(answer, 0, "a hearing");
        for (count, samples) in (1..).zip(hearings) {
            let answer = library::hearing_add(&mut state, &self.quantised(factor, samples));
            assert_eq!(answer, count << 8, "the count of hearings");
        }
        let mut payload = vec![0; packed_length(self.k)];
        let answer = library::hearing_decode_restarted(&state, flips.limit(), &mut payload);
        Outcome::of(answer, payload)
    }
}

/// The mean of the log-likelihood ratios where zeros were sent, and the factor that makes them of
/// samples: 2/σ² = 4 · k/N · Eb/N0, a bit of Eb being one of the payload.
pub fn ratio(k: usize, decibels: f64) -> f64 {
    let rate = k as f64 / f64::from(1 << DEPTH);
    4.0 * rate * 10f64.powf(decibels / 10.0)
}
