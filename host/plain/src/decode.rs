//! Flip decoding, full, with half restart and restarted.

use crate::answer::{number, refuse_if, Answer};
use crate::code::{check_channel, Code};
use crate::message::{pack, passes, take};
use crate::pass::Pass;
use crate::SIZE;

/// Declares a decoder, which writes the packed payload.
macro_rules! decoder {
    ($name:ident, $restart:ident) => {
        pub fn $name(description: &[u8], channel: &[u8], limit: u32, payload: &mut [u8]) -> u64 {
            let restart = Restart::$restart;
            number(try_decode(description, channel, limit, payload, restart))
        }
    };
}

decoder!(decode_full, Full);
decoder!(decode_half, Half);
decoder!(decode_restarted, Restarted);

/// Where a later trial resumes: at the root; at the middle, if its lowest flipped index is there or
/// above; after that index.
#[derive(Clone, Copy)]
pub enum Restart {
    Full,
    Half,
    Restarted,
}

impl Restart {
    /// The index at which a trial resumes whose lowest flipped index is given.
    fn index(self, code: &Code, flipped: usize) -> usize {
        let half = code.size / 2;
        match self {
            Restart::Restarted => code.next_information(flipped),
            Restart::Half if flipped >= half => half,
            Restart::Full | Restart::Half => 0,
        }
    }

    /// Forces the bits before the index at which a trial resumes: trial 1's, but at the lowest flipped
    /// index the opposite, and zeros after it. Gives how many.
    pub fn force(self, pass: &mut Pass, code: &Code, first: &[u8; SIZE], flipped: usize) -> usize {
        let q = self.index(code, flipped);
        if q <= flipped {
            pass.bits[..q].copy_from_slice(&first[..q]);
            return q;
        }
        pass.bits[..flipped].copy_from_slice(&first[..flipped]);
        pass.bits[flipped] = 1 - first[flipped];
        pass.bits[flipped + 1..q].fill(0);
        q
    }
}

/// A trial after the first, from trial 1's bits and the flipped index.
fn later_trial(
    pass: &mut Pass,
    code: &Code,
    channel: &[u8],
    first: &[u8; SIZE],
    flipped: usize,
    restart: Restart,
) {
    let q = restart.force(pass, code, first, flipped);
    pass.rules[flipped] = 3;
    pass.run(channel, q);
    pass.rules[flipped] = 1;
}

fn try_decode(
    description: &[u8],
    channel: &[u8],
    limit: u32,
    payload: &mut [u8],
    restart: Restart,
) -> Answer {
    let code = Code::read(description)?;
    check_channel(&code, channel)?;
    decode_values(&code, channel, limit, payload, restart)
}

/// Decodes values of a code that was read.
pub fn decode_values(
    code: &Code,
    values: &[u8],
    limit: u32,
    payload: &mut [u8],
    restart: Restart,
) -> Answer {
    let limit = limit as usize;
    refuse_if(limit < 1 || limit > code.information() + 1, 14)?;
    refuse_if(payload.len() != code.k.div_ceil(8), 15)?;
    let mut pass = Pass::new(code);
    let mut message = [0; SIZE];
    let trial = make_trials(&mut pass, code, values, limit, restart, &mut message);
    let steps = (pass.steps as u64) << 32;
    let Some(trial) = trial else {
        return Err(16 + ((limit as u64) << 8) + steps);
    };
    pack(&message[..code.k], payload);
    Ok(((trial as u64) << 8) + steps)
}

/// Makes trials until one passes, and leaves its message; gives its number.
fn make_trials(
    pass: &mut Pass,
    code: &Code,
    channel: &[u8],
    limit: usize,
    restart: Restart,
    message: &mut [u8; SIZE],
) -> Option<usize> {
    pass.run(channel, 0);
    if accepts(code, pass, message) {
        return Some(1);
    }
    if limit == 1 {
        return None;
    }
    let first = pass.bits;
    let keys = keys(code, &pass.leaves);
    let keys = &keys[..code.size];
    let mut key = -1;
    for trial in 2..=limit {
        key = next_key(keys, key);
        later_trial(pass, code, channel, &first, key as usize % SIZE, restart);
        if accepts(code, pass, message) {
            return Some(trial);
        }
    }
    None
}

/// Takes the message out; whether its check is right.
pub fn accepts(code: &Code, pass: &Pass, message: &mut [u8; SIZE]) -> bool {
    take(code, &pass.bits, message);
    passes(code, &message[..code.information()])
}

/// Keys in the order of flipped indices: the leaf magnitude, then the index. Those of frozen
/// indices come last of all.
fn keys(code: &Code, leaves: &[i32; SIZE]) -> [i32; SIZE] {
    let mut keys = [i32::MAX; SIZE];
    let pairs = leaves.iter().zip(code.mask_bits());
    for (index, (key, (leaf, information))) in keys.iter_mut().zip(pairs).enumerate() {
        if information == 1 {
            *key = leaf.abs() * SIZE as i32 + index as i32;
        }
    }
    keys
}

/// The least key above the last one.
fn next_key(keys: &[i32], last: i32) -> i32 {
    keys.iter().fold(i32::MAX, |least, &key| {
        if key > last && key < least {
            key
        } else {
            least
        }
    })
}
