//! What the flip decoders work on, and when a trial passes: document 01, "Flip decoding, full and
//! restarted".

use crate::reference::channel::read_channel;
use crate::reference::check::check;
use crate::reference::description::{describe, mask_of, Code};
use crate::reference::pass::{pass, plain_rules, Pass};
use crate::reference::placing::take;
use crate::reference::refusal::Refusal;

/// A code, its mask, and the channel values.
pub struct Frame<'a> {
    pub code: Code,
    pub mask: &'a [u8],
    pub values: Vec<i64>,
}

impl<'a> Frame<'a> {
    /// Reads a description and a channel, with the refusals of both.
    pub fn read(description: &'a [u8], channel: &[u8]) -> Result<Self, Refusal> {
        let code = describe(description)?;
        let values = read_channel(channel, code.size())?;
        Ok(Frame {
            code,
            mask: mask_of(description),
            values,
        })
    }

    /// Trial 1, a plain pass.
    pub fn first_trial(&self) -> Pass {
        pass(&self.values, &[], &plain_rules(self.mask))
    }

    /// The payload bits of a pass, where their check equals its check bits.
    pub fn passing_payload(&self, bits: &[u8]) -> Option<Vec<u8>> {
        let code = &self.code;
        let mut payload = take(self.mask, bits);
        let check_bits = payload.split_off(code.k);
        let expected = check(&payload, code.r, code.polynomial, code.start);
        (expected == check_bits).then_some(payload)
    }
}
