//! Hearings: vectors added up in a state that the caller lends.

use crate::answer::{number, refuse_if, Answer};
use crate::code::{are_within, check_channel, Code};
use crate::decode::{decode_values, Restart};
use crate::SIZE;

const LONGEST_DESCRIPTION: usize = 10 + SIZE / 8;
const MOST_COUNT: u8 = 255;

/// Where the count and the values stand in the bytes lent.
const COUNT: usize = LONGEST_DESCRIPTION;
const VALUES: usize = COUNT + 1;

/// The bytes of a state.
const STATE_SIZE: usize = VALUES + SIZE;

/// A state: a description and N combined values, each with zeros after it, and the count of vectors
/// in them.
struct Hearing {
    description: [u8; LONGEST_DESCRIPTION],
    count: u8,
    values: [u8; SIZE],
}

impl Hearing {
    const ZERO: Hearing = Hearing {
        description: [0; LONGEST_DESCRIPTION],
        count: 0,
        values: [0; SIZE],
    };

    /// Takes the state out of the bytes lent, whatever it is.
    fn read(state: &[u8]) -> Result<Self, u64> {
        refuse_if(state.len() != STATE_SIZE, 40)?;
        let mut hearing = Hearing::ZERO;
        hearing.description.copy_from_slice(&state[..COUNT]);
        hearing.count = state[COUNT];
        hearing.values.copy_from_slice(&state[VALUES..]);
        Ok(hearing)
    }

    fn write(&self, state: &mut [u8]) {
        state[..COUNT].copy_from_slice(&self.description);
        state[COUNT] = self.count;
        state[VALUES..].copy_from_slice(&self.values);
    }

    /// The code, of a state that a list of calls can have left.
    fn code(&self) -> Result<Code<'_>, u64> {
        let length = u16::from_le_bytes([self.description[0], self.description[1]]);
        let (description, rest) = self
            .description
            .split_at_checked(length.into())
            .ok_or(40u64)?;
        let code = Code::read(description).map_err(|_| 40u64)?;
        let (values, after) = self.values.split_at(code.size);
        refuse_if(!are_zero(rest) || !are_zero(after), 40)?;
        refuse_if(!are_within(values), 40)?;
        refuse_if(self.count == 0 && !are_zero(values), 40)?;
        Ok(code)
    }

    /// Adds a vector; the answer has the count.
    fn add(&mut self, channel: &[u8]) -> Answer {
        let code = self.code()?;
        check_channel(&code, channel)?;
        refuse_if(self.count == MOST_COUNT, 27)?;
        for (value, heard) in self.values.iter_mut().zip(channel) {
            *value = clipped_sum(*value, *heard);
        }
        self.count += 1;
        Ok(u64::from(self.count) << 8)
    }

    fn clear(&mut self) -> Answer {
        self.code()?;
        self.count = 0;
        self.values = [0; SIZE];
        Ok(0)
    }

    fn decode(&self, limit: u32, payload: &mut [u8], restart: Restart) -> Answer {
        let code = self.code()?;
        decode_values(&code, &self.values[..code.size], limit, payload, restart)
    }
}

/// Whether all bytes are zero. It looks at each of them, so that several are compared at once.
fn are_zero(bytes: &[u8]) -> bool {
    bytes.iter().fold(0, |any, byte| any | byte) == 0
}

/// A sum of two values is at most 62.
fn clipped_sum(a: u8, b: u8) -> u8 {
    (a.wrapping_add(b) as i8).clamp(-31, 31) as u8
}

/// Writes the state of a fresh hearing.
pub fn hearing_open(description: &[u8], state: &mut [u8]) -> u64 {
    number(try_open(description, state))
}

fn try_open(description: &[u8], state: &mut [u8]) -> Answer {
    refuse_if(state.len() != STATE_SIZE, 40)?;
    Code::read(description)?;
    let mut hearing = Hearing::ZERO;
    hearing.description[..description.len()].copy_from_slice(description);
    hearing.write(state);
    Ok(0)
}

/// Adds a vector to the state.
pub fn hearing_add(state: &mut [u8], channel: &[u8]) -> u64 {
    number(change(state, |hearing| hearing.add(channel)))
}

/// Clears the state.
pub fn hearing_clear(state: &mut [u8]) -> u64 {
    number(change(state, Hearing::clear))
}

/// Reads the state, changes it, and writes it back.
fn change(state: &mut [u8], by: impl FnOnce(&mut Hearing) -> Answer) -> Answer {
    let mut hearing = Hearing::read(state)?;
    let answer = by(&mut hearing)?;
    hearing.write(state);
    Ok(answer)
}

/// Writes the packed payload.
pub fn hearing_decode_full(state: &[u8], limit: u32, payload: &mut [u8]) -> u64 {
    number(try_decode(state, limit, payload, Restart::Full))
}

/// The same, restarted.
pub fn hearing_decode_restarted(state: &[u8], limit: u32, payload: &mut [u8]) -> u64 {
    number(try_decode(state, limit, payload, Restart::Restarted))
}

fn try_decode(state: &[u8], limit: u32, payload: &mut [u8], restart: Restart) -> Answer {
    Hearing::read(state)?.decode(limit, payload, restart)
}

/// The same after a vector was added to a copy.
pub fn hearing_preview(state: &[u8], channel: &[u8], limit: u32, payload: &mut [u8]) -> u64 {
    number(try_preview(state, channel, limit, payload))
}

fn try_preview(state: &[u8], channel: &[u8], limit: u32, payload: &mut [u8]) -> Answer {
    let mut copy = Hearing::read(state)?;
    copy.add(channel)?;
    copy.decode(limit, payload, Restart::Restarted)
}
