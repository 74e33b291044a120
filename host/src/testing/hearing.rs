//! Calls on the state of a hearing, held to the reference in the answer and in every byte of state and
//! output.

use std::fmt::{self, Display, Formatter};

use crate::reference::description::LONGEST_DESCRIPTION;
use crate::reference::flip::Accepted;
use crate::reference::hearing::state::{add_in, clear_in, decode_in, open_in, preview_in};
use crate::reference::hearing::Hearing;
use crate::reference::number::{decode_number, hearing_number};
use crate::reference::refusal::Refusal;
use crate::reference::restart::Restart;
use crate::reference::sizes::HEARING_SIZE;
use crate::testing::decoders;
use crate::testing::faulty::Faulty;
use crate::testing::guard::{lend_input, lend_output, lend_reference};
use crate::testing::lent;
use crate::testing::library::{self, HearingDecoder};
use crate::testing::met::Met;
use crate::testing::outcomes::Outcomes;
use crate::testing::random::Random;

/// How the reference decodes, the library's decoder of a state, and that of a channel.
#[derive(Clone, Copy)]
pub struct Pair {
    restart: Restart,
    library: HearingDecoder,
    channel: decoders::Pair,
}

pub const FULL: Pair = Pair {
    restart: Restart::Full,
    library: library::hearing_decode_full,
    channel: decoders::FULL,
};

pub const RESTARTED: Pair = Pair {
    restart: Restart::AfterFlip,
    library: library::hearing_decode_restarted,
    channel: decoders::RESTARTED,
};

/// The decoders.
pub const BOTH: [Pair; 2] = [FULL, RESTARTED];

/// A call on a state: of an export, with what is lent beside the state.
#[derive(Clone)]
pub enum Call {
    Open(Vec<u8>),
    Add(Vec<u8>),
    Clear,
    /// The trial limit, and what the output holds before.
    Decode(Pair, u32, Vec<u8>),
    /// The vector that is tried, then as above.
    Preview(Vec<u8>, u32, Vec<u8>),
}

impl Call {
    /// A call of each export.
    pub fn each(lent: &Faulty) -> [Call; 6] {
        let [full, restarted] = BOTH.map(|by| Call::Decode(by, lent.limit, lent.before.clone()));
        let open = Call::Open(lent.description.clone());
        let add = Call::Add(lent.channel.clone());
        let preview = Call::preview(lent);
        [open, add, Call::Clear, full, restarted, preview]
    }

    /// A preview of what is lent.
    pub fn preview(lent: &Faulty) -> Call {
        Call::Preview(lent.channel.clone(), lent.limit, lent.before.clone())
    }

    /// Makes the call on a copy of a state that is lent between guard bytes, and compares it with the
    /// reference. The state becomes what the call leaves. Gives its number.
    pub fn make(&self, state: &mut Vec<u8>) -> u64 {
        let (number, after) = self.by_library(state);
        let (expected, written) = self.by_reference(state);
        let differs = after.iter().zip(&written).position(|(a, b)| a != b);
        assert!(
            number == expected && after == written,
            "{number:x} and not {expected:x}, first other byte {differs:?}: {self} on {state:02x?}"
        );
        if !matches!(self, Call::Decode(..) | Call::Preview(..)) {
            *state = after;
        }
        number
    }

    /// Makes the call on a buffer as it stands; what else is lent stands between guard bytes. Gives
    /// its number, and its output after it, which is empty where it has none beside the state.
    pub fn make_in_place(&self, state: &mut [u8]) -> (u64, Vec<u8>) {
        let number = match self {
            Call::Open(d) => lend_input(d, |d| library::hearing_open(d, state)),
            Call::Add(channel) => {
                lend_input(channel, |channel| library::hearing_add(state, channel))
            }
            Call::Clear => library::hearing_clear(state),
            Call::Decode(by, limit, before) => return by.run_in_place(state, *limit, before),
            Call::Preview(channel, limit, before) => {
                return preview_in_place(state, channel, *limit, before);
            }
        };
        (number, vec![])
    }

    /// The library's number, and what it may write after the call. A state that is only read is the
    /// same afterwards.
    fn by_library(&self, state: &[u8]) -> (u64, Vec<u8>) {
        match self {
            Call::Decode(by, limit, before) => by.run(state, *limit, before),
            Call::Preview(channel, limit, before) => preview(state, channel, *limit, before),
            _ => lend_output(state, |state| self.make_in_place(state).0),
        }
    }

    /// The same of the reference.
    fn by_reference(&self, state: &[u8]) -> (u64, Vec<u8>) {
        let (answer, after) = match self {
            Call::Open(d) => lend_reference(state, |state| open_in(d, state)),
            Call::Add(channel) => lend_reference(state, |state| add_in(state, channel)),
            Call::Clear => lend_reference(state, clear_in),
            Call::Decode(by, limit, before) => {
                let decode = |output: &mut [u8]| decode_in(by.restart, state, *limit, output);
                return decoded_by_reference(before, decode);
            }
            Call::Preview(channel, limit, before) => {
                let preview = |output: &mut [u8]| preview_in(state, channel, *limit, output);
                return decoded_by_reference(before, preview);
            }
        };
        (hearing_number(&answer), after)
    }
}

/// The number of what the reference decodes, and the output after it.
fn decoded_by_reference(
    before: &[u8],
    decode: impl FnOnce(&mut [u8]) -> Result<Accepted, Refusal>,
) -> (u64, Vec<u8>) {
    let (answer, after) = lend_reference(before, decode);
    (decode_number(&answer), after)
}

impl Display for Call {
    fn fmt(&self, to: &mut Formatter) -> fmt::Result {
        match self {
            Call::Open(d) => write!(to, "open {d:02x?}"),
            Call::Add(channel) => write!(to, "add {channel:02x?}"),
            Call::Clear => write!(to, "clear"),
            Call::Decode(by, limit, before) => {
                let room = before.len();
                write!(to, "decode {:?}, T = {limit}, {room} bytes", by.restart)
            }
            Call::Preview(channel, limit, before) => {
                let room = before.len();
                write!(to, "preview {channel:02x?}, T = {limit}, {room} bytes")
            }
        }
    }
}

impl Pair {
    /// The library's answer, and its output after it.
    pub fn run(self, state: &[u8], limit: u32, before: &[u8]) -> (u64, Vec<u8>) {
        lend_input(state, |state| self.run_in_place(state, limit, before))
    }

    /// The same on a state as it stands.
    fn run_in_place(self, state: &[u8], limit: u32, before: &[u8]) -> (u64, Vec<u8>) {
        lend_output(before, |output| (self.library)(state, limit, output))
    }
}

/// The library's answer to a preview, and its output after it.
pub fn preview(state: &[u8], channel: &[u8], limit: u32, before: &[u8]) -> (u64, Vec<u8>) {
    lent::decode(library::hearing_preview, state, channel, limit, before)
}

/// The same on a state as it stands.
fn preview_in_place(state: &[u8], channel: &[u8], limit: u32, before: &[u8]) -> (u64, Vec<u8>) {
    lend_input(channel, |channel| {
        lend_output(before, |output| {
            library::hearing_preview(state, channel, limit, output)
        })
    })
}

/// That decoding a state is decoding its values under its description, also in the steps, so that full
/// and restarted decoding agree as those decoders do. Gives full decoding's answer.
pub fn check_decoders(state: &[u8], limit: u32, before: &[u8]) -> Result<Accepted, Refusal> {
    let hearing = Hearing::from_bytes(state).expect("a hearing");
    let (d, channel) = (&hearing.description, hearing.channel());
    for by in BOTH {
        let of_channel = by.channel.run(d, &channel, limit, before);
        assert_eq!(by.run(state, limit, before), of_channel, "{hearing:02x?}");
    }
    decoders::check(d, &channel, limit, before)
}

/// The number of an answer's refusal, or 0.
pub fn refusal(number: u64) -> usize {
    (number & 0xFF) as usize
}

/// Changes a state, in a byte or in its size, so that it is none any more.
pub fn damage(random: &mut Random, state: &mut Vec<u8>) {
    let good = state.clone();
    while Hearing::from_bytes(state).is_ok() {
        state.clone_from(&good);
        match random.below(4) {
            0 => state.resize(other_size(random), 0),
            _ => state[any_place(random)] = random.byte(),
        }
    }
}

/// A number of bytes that no state has.
fn other_size(random: &mut Random) -> usize {
    match random.below(3) {
        0 => [0, 1, HEARING_SIZE - 1, HEARING_SIZE + 1][random.below(4)],
        1 => random.below(HEARING_SIZE),
        _ => random.between(HEARING_SIZE + 1, 3 * HEARING_SIZE),
    }
}

/// A place in a state: in the fields of the description, in or after it, at the count or the first
/// values, anywhere.
fn any_place(random: &mut Random) -> usize {
    match random.below(4) {
        0 => random.below(10),
        1 => random.below(LONGEST_DESCRIPTION),
        2 => LONGEST_DESCRIPTION + random.below(9),
        _ => random.below(HEARING_SIZE),
    }
}

/// What came of the calls of each export.
#[derive(Debug, Default)]
pub struct Tally {
    pub open: Met,
    pub add: Met,
    pub clear: Met,
    pub full: Met,
    pub restarted: Met,
    pub preview: Met,
    /// What became of frames, by decoding and by preview.
    pub decoded: Outcomes,
    pub previewed: Outcomes,
}

impl Tally {
    /// Makes a call, and counts what came of it. Gives its refusal, or 0.
    pub fn make(&mut self, call: &Call, state: &mut Vec<u8>) -> usize {
        let number = call.make(state);
        let met = match call {
            Call::Open(_) => &mut self.open,
            Call::Add(_) => &mut self.add,
            Call::Clear => &mut self.clear,
            Call::Decode(by, ..) if by.restart == Restart::Full => &mut self.full,
            Call::Decode(..) => &mut self.restarted,
            Call::Preview(..) => &mut self.preview,
        };
        met.count(refusal(number));
        match call {
            Call::Decode(..) => self.decoded.count_number(number),
            Call::Preview(..) => self.previewed.count_number(number),
            _ => (),
        }
        refusal(number)
    }

    /// What came of the calls of each export, of open first.
    pub fn all(&self) -> [&Met; 6] {
        [
            &self.open,
            &self.add,
            &self.clear,
            &self.full,
            &self.restarted,
            &self.preview,
        ]
    }
}
