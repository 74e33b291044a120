//! The encoder.

use crate::answer::{number, refuse_if, Answer};
use crate::code::Code;
use crate::message::{pack, place, put_check, transform, unpack};
use crate::SIZE;

/// Writes a packed codeword.
pub fn encode(description: &[u8], payload: &[u8], codeword: &mut [u8]) -> u64 {
    number(try_encode(description, payload, codeword))
}

fn try_encode(description: &[u8], payload: &[u8], codeword: &mut [u8]) -> Answer {
    let code = Code::read(description)?;
    refuse_if(payload.len() != code.k.div_ceil(8), 9)?;
    let used = code.k % 8;
    let last = payload[payload.len() - 1];
    refuse_if(used > 0 && last & 0xFF >> used != 0, 10)?;
    refuse_if(codeword.len() != code.size / 8, 11)?;
    let mut message = [0; SIZE];
    unpack(payload, &mut message[..code.k]);
    put_check(&code, &mut message[..code.information()]);
    let mut u = [0; SIZE];
    let u = &mut u[..code.size];
    place(&code, &message, u);
    transform(u);
    pack(u, codeword);
    Ok(0)
}
