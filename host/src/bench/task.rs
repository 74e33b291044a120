//! The operations that are timed.

use std::fmt::{self, Display, Formatter};

use crate::bench::codec::{Codec, Way};
use crate::bench::frames::{Frame, Purpose, SCALE};
use crate::bench::search::Search;
use crate::reference::packing::packed_length;
use crate::reference::sizes::HEARING_SIZE;

/// An operation on a frame.
#[derive(Clone, Copy, Debug, PartialEq, Eq)]
pub enum Task {
    Encode,
    /// One pass: resume with an empty prefix.
    Pass,
    Decode(Way, Limit),
    /// Decoding with flip sets.
    Sets(Way, Search),
    Quantise,
    /// Adding the second vector of a hearing.
    Add,
    /// Restarted decoding of a hearing with two vectors.
    Heard(Limit),
    /// Adding the second vector and restarted decoding, on a copy.
    Preview(Limit),
}

/// A trial limit T.
#[derive(Clone, Copy, Debug, PartialEq, Eq)]
pub enum Limit {
    Trials(u32),
    /// K + 1, the largest.
    All,
}

/// The trial limit of rows that have one alone.
pub const ONE_LIMIT: &[Limit] = &[Limit::Trials(13)];

/// The trial limits that are timed: of half restart, which lies between the other ways, one alone.
pub fn limits(way: Way) -> &'static [Limit] {
    match way {
        Way::Half => ONE_LIMIT,
        Way::Full | Way::Restarted => &[Limit::Trials(1), Limit::Trials(13), Limit::All],
    }
}

impl Task {
    /// Calls a codec; gives its answer as one number. The output goes to the start of `room`, where a
    /// task that changes a state finds it.
    pub fn call(self, codec: &Codec, frame: &Frame, room: &mut [u8]) -> u64 {
        let Frame {
            description,
            code,
            payload,
            samples,
            channel,
            ..
        } = frame;
        let output = &mut room[..self.output_length(frame)];
        let trials = |limit: Limit| limit.of(code.information());
        match self {
            Task::Encode => (codec.encode)(description, payload, output),
            Task::Pass => (codec.resume)(description, channel, &[], output),
            Task::Decode(way, limit) => {
                codec.decoder(way)(description, channel, trials(limit), output)
            }
            Task::Sets(way, search) => {
                let (most_flips, limit) = (search.most_flips, search.limit);
                codec.set_decoder(way)(description, channel, most_flips, limit, output)
            }
            Task::Quantise => {
                let mut numbers = [0; 2];
                let peak = (codec.quantise)(SCALE, samples, output, &mut numbers);
                let [refusal, clipped] = numbers;
                refusal ^ clipped << 8 ^ u64::from(peak.to_bits()) << 32
            }
            Task::Add => (codec.hearing_add)(output, channel),
            Task::Heard(limit) => {
                (codec.hearing_decode_restarted)(&frame.held().twice, trials(limit), output)
            }
            Task::Preview(limit) => {
                (codec.hearing_preview)(&frame.held().once, channel, trials(limit), output)
            }
        }
    }

    /// The answer, and the output after it.
    pub fn result(self, codec: &Codec, frame: &Frame) -> (u64, Vec<u8>) {
        let mut output = match self.changes_state() {
            true => frame.held().once.clone(),
            false => vec![0xEE; self.output_length(frame)],
        };
        let answer = self.call(codec, frame, &mut output);
        (answer, output)
    }

    /// Whether the output is the state of a hearing, which holds one vector before.
    pub fn changes_state(self) -> bool {
        matches!(self, Task::Add)
    }

    /// What frames it needs.
    pub fn purpose(self) -> Purpose {
        match self {
            Task::Encode | Task::Pass | Task::Decode(..) | Task::Quantise => Purpose::Single,
            Task::Add | Task::Heard(_) | Task::Preview(_) => Purpose::Hearing,
            Task::Sets(_, search) => Purpose::Search(search),
        }
    }

    /// Whether its time grows with N, and not with n · N.
    pub fn is_linear(self) -> bool {
        matches!(self, Task::Quantise) || self.changes_state()
    }

    fn output_length(self, frame: &Frame) -> usize {
        match self {
            Task::Encode => frame.code.size() / 8,
            Task::Pass | Task::Quantise => frame.code.size(),
            Task::Decode(..) | Task::Sets(..) | Task::Heard(_) | Task::Preview(_) => {
                packed_length(frame.code.k)
            }
            Task::Add => HEARING_SIZE,
        }
    }
}

impl Limit {
    /// The limit under a code with K information indices.
    fn of(self, information: usize) -> u32 {
        let most = information as u32 + 1;
        match self {
            Limit::Trials(limit) => limit.min(most),
            Limit::All => most,
        }
    }
}

impl Display for Task {
    fn fmt(&self, to: &mut Formatter) -> fmt::Result {
        match self {
            Task::Encode => to.write_str("encode"),
            Task::Pass => to.write_str("one pass"),
            Task::Quantise => to.write_str("quantise"),
            Task::Decode(way, limit) => write!(to, "{way}, T = {limit}"),
            Task::Sets(way, search) => write!(to, "{way}, {search}, k = {}", search.k),
            Task::Add => to.write_str("add"),
            Task::Heard(limit) => write!(to, "heard twice, T = {limit}"),
            Task::Preview(limit) => write!(to, "preview, T = {limit}"),
        }
    }
}

impl Display for Limit {
    fn fmt(&self, to: &mut Formatter) -> fmt::Result {
        match self {
            Limit::Trials(limit) => write!(to, "{limit}"),
            Limit::All => to.write_str("K + 1"),
        }
    }
}
