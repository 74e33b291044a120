//! Inputs of the benchmark: codes with sensible information sets, and codewords under noise.

use std::f64::consts::TAU;

use crate::bench::search::Search;
use crate::reference::description::{describe, record, Code};
use crate::reference::packing::{pack, packed_length, unpack};
use crate::reference::sizes::HEARING_SIZE;
use crate::simulation::DEPTH;
use crate::testing::random::Random;
use crate::testing::samples;

/// How many frames of each length there are.
pub const COUNT: usize = 256;

/// The quantiser's scale: a bit without noise, a sample of 1, has the channel value 10.
pub const SCALE: f32 = 2.5;

/// A code, a payload, and its codeword under noise: as samples, and as channel values. Of a frame that
/// is heard twice these are the second time's.
pub struct Frame {
    pub description: Vec<u8>,
    pub code: Code,
    pub payload: Vec<u8>,
    pub samples: Vec<f32>,
    pub channel: Vec<u8>,
    held: Option<Held>,
}

/// The states of a hearing before and after the channel values of the second time are added.
pub struct Held {
    pub once: Vec<u8>,
    pub twice: Vec<u8>,
}

/// What is done with frames.
#[derive(Clone, Copy, Debug, PartialEq, Eq)]
pub enum Purpose {
    /// Each is heard once.
    Single,
    /// Each is heard twice.
    Hearing,
    /// They are decoded with flip sets.
    Search(Search),
}

/// Frames of one length at a ratio Eb/N0.
pub struct Frames {
    pub n: usize,
    pub decibels: f64,
    pub purpose: Purpose,
    pub list: Vec<Frame>,
}

impl Frames {
    /// Frames of length 2^n, each of another code, at the noise where one in ten fails its first
    /// trial.
    pub fn of_length(n: usize) -> Frames {
        let sent = sent(&mut Random::new(n as u64), n);
        let frame = |at: usize, decibels| sent[at].received(decibels, SCALE);
        Frames::with_failures(n, Purpose::Single, frame)
    }

    /// The same frames, each heard twice with as much noise as makes one in ten fail its first trial
    /// after both are added.
    pub fn of_hearings(n: usize) -> Frames {
        let mut random = Random::new(n as u64);
        let first = sent(&mut random, n);
        let second: Vec<Sent> = first.iter().map(|sent| sent.again(&mut random)).collect();
        let frame = |at: usize, decibels| {
            let [first, second] = [&first, &second].map(|sent| sent[at].received(decibels, SCALE));
            second.heard_after(&first)
        };
        Frames::with_failures(n, Purpose::Hearing, frame)
    }

    /// Frames by their place and the ratio, at the largest ratio where one in ten fails.
    fn with_failures(n: usize, purpose: Purpose, frame: impl Fn(usize, f64) -> Frame) -> Frames {
        let received = |hundredths: i32| {
            let decibels = f64::from(hundredths) / 100.0;
            Frames {
                n,
                decibels,
                purpose,
                list: (0..COUNT).map(|at| frame(at, decibels)).collect(),
            }
        };
        let (mut quiet, mut loud) = (1000, -1000);
        while quiet - loud > 1 {
            let middle = (quiet + loud) / 2;
            if 10 * received(middle).failing() < COUNT {
                quiet = middle;
            } else {
                loud = middle;
            }
        }
        received(loud)
    }

    /// Frames of a code of document 000 at the noise of its table I.
    pub fn of_search(search: Search) -> Frames {
        let (description, decibels) = (search.setting().description(), search.decibels());
        let mut random = Random::new(search.k as u64 + u64::from(search.most_flips));
        let list = (0..COUNT)
            .map(|_| Sent::new(&mut random, description.clone()))
            .map(|sent| sent.received(decibels, search.scale()))
            .collect();
        Frames {
            n: DEPTH,
            decibels,
            purpose: Purpose::Search(search),
            list,
        }
    }

    /// The search of those decoded with flip sets.
    pub fn search(&self) -> Option<Search> {
        match self.purpose {
            Purpose::Search(search) => Some(search),
            Purpose::Single | Purpose::Hearing => None,
        }
    }

    /// How many fail their first trial.
    pub fn failing(&self) -> usize {
        self.list.iter().filter(|frame| frame.fails_first()).count()
    }
}

impl Frame {
    /// The states of a frame that is heard twice.
    pub fn held(&self) -> &Held {
        self.held.as_ref().expect("a frame that is heard twice")
    }

    fn fails_first(&self) -> bool {
        let mut payload = vec![0; packed_length(self.code.k)];
        let answer = match &self.held {
            None => plain::decode_full(&self.description, &self.channel, 1, &mut payload),
            Some(held) => plain::hearing_decode_full(&held.twice, 1, &mut payload),
        };
        answer & 0xFF == 16
    }

    /// This frame, where another one with the same codeword was heard before.
    fn heard_after(self, first: &Frame) -> Frame {
        let mut once = vec![0; HEARING_SIZE];
        plain::hearing_open(&self.description, &mut once);
        plain::hearing_add(&mut once, &first.channel);
        let mut twice = once.clone();
        plain::hearing_add(&mut twice, &self.channel);
        Frame {
            held: Some(Held { once, twice }),
            ..self
        }
    }
}

/// A codeword, and for each of its bits the noise that it will meet, in standard deviations.
struct Sent {
    description: Vec<u8>,
    code: Code,
    payload: Vec<u8>,
    codeword: Vec<u8>,
    noise: Vec<f64>,
}

impl Sent {
    fn new(random: &mut Random, description: Vec<u8>) -> Self {
        let code = describe(&description).expect("a code");
        let payload = pack(&random.bits(code.k));
        let mut packed = vec![0; code.size() / 8];
        plain::encode(&description, &payload, &mut packed);
        Sent {
            codeword: unpack(&packed, code.size()),
            noise: noise(random, code.size()),
            description,
            code,
            payload,
        }
    }

    /// The same codeword with other noise.
    fn again(&self, random: &mut Random) -> Self {
        Sent {
            description: self.description.clone(),
            code: self.code,
            payload: self.payload.clone(),
            codeword: self.codeword.clone(),
            noise: noise(random, self.code.size()),
        }
    }

    /// The frame at a ratio Eb/N0, a bit being one of the payload.
    fn received(&self, decibels: f64, scale: f32) -> Frame {
        let rate = self.code.k as f64 / self.code.size() as f64;
        let deviation = (2.0 * rate * 10f64.powf(decibels / 10.0)).sqrt().recip();
        let pairs = self.codeword.iter().zip(&self.noise);
        let samples: Vec<f32> = pairs
            .map(|(bit, noise)| (1.0 - 2.0 * f64::from(*bit) + deviation * noise) as f32)
            .collect();
        let mut channel = vec![0; samples.len()];
        plain::quantise(scale, &samples, &mut channel, &mut [0; 2]);
        Frame {
            description: self.description.clone(),
            code: self.code,
            payload: self.payload.clone(),
            samples,
            channel,
            held: None,
        }
    }
}

/// Codewords of length 2^n, each of another code.
fn sent(random: &mut Random, n: usize) -> Vec<Sent> {
    let one = |_| {
        let description = description(random, n);
        Sent::new(random, description)
    };
    (0..COUNT).map(one).collect()
}

/// A code with a payload of an eighth to a half of its length.
fn description(random: &mut Random, n: usize) -> Vec<u8> {
    let size = 1 << n;
    let r = 16.min(n + random.below(n / 2 + 2));
    let k = random.between(size / 8, size / 2);
    let polynomial = samples::polynomial(random, r);
    record(n, r, polynomial, &samples::reliable_mask(n, k + r))
}

fn noise(random: &mut Random, count: usize) -> Vec<f64> {
    (0..count).map(|_| normal(random)).collect()
}

/// A number of the standard normal distribution, by Box and Muller.
fn normal(random: &mut Random) -> f64 {
    let radius = (-2.0 * random.fraction().ln()).sqrt();
    radius * (TAU * random.fraction()).cos()
}

#[cfg(test)]
mod tests {
    use super::*;

    #[test]
    fn one_frame_in_ten_fails_its_first_trial() {
        for frames in [5, 7].map(|n| [Frames::of_length(n), Frames::of_hearings(n)]) {
            for frames in frames {
                assert_eq!(frames.list.len(), COUNT);
                let failing = frames.failing();
                assert!((26..=28).contains(&failing), "{failing}");
            }
        }
    }

    #[test]
    fn normal_numbers() {
        let mut random = Random::new(1);
        let numbers: Vec<f64> = (0..100_000).map(|_| normal(&mut random)).collect();
        let mean = |power| numbers.iter().map(|x| x.powi(power)).sum::<f64>() / 100_000.0;
        assert!(mean(1).abs() < 0.02, "{}", mean(1));
        assert!((mean(2) - 1.0).abs() < 0.02, "{}", mean(2));
        assert!((mean(4) - 3.0).abs() < 0.1, "{}", mean(4));
    }
}
