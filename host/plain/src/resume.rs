//! A pass whose first bits are forced.

use crate::answer::{number, refuse_if, Answer};
use crate::code::{check_channel, Code};
use crate::pass::Pass;

/// Writes all N bits, one per byte.
pub fn resume(description: &[u8], channel: &[u8], prefix: &[u8], bits: &mut [u8]) -> u64 {
    number(try_resume(description, channel, prefix, bits))
}

/// The first prefix byte that is not a bit, or that is 1 at a frozen index.
fn first_bad(code: &Code, prefix: &[u8]) -> Option<usize> {
    let mut pairs = prefix.iter().zip(code.mask_bits());
    pairs.position(|(byte, information)| *byte > information)
}

fn try_resume(description: &[u8], channel: &[u8], prefix: &[u8], bits: &mut [u8]) -> Answer {
    let code = Code::read(description)?;
    check_channel(&code, channel)?;
    refuse_if(prefix.len() > code.size, 17)?;
    if let Some(index) = first_bad(&code, prefix) {
        return Err(18 + ((index as u64) << 8));
    }
    refuse_if(bits.len() != code.size, 19)?;
    let mut pass = Pass::new(&code);
    pass.bits[..prefix.len()].copy_from_slice(prefix);
    pass.run(channel, prefix.len());
    bits.copy_from_slice(&pass.bits[..code.size]);
    Ok((pass.steps as u64) << 32)
}
