//! The encoder: document 01, "Check and encoder".

use crate::reference::check::check;
use crate::reference::description::{describe, mask_of, Code};
use crate::reference::packing::{pack, packed_length, unpack};
use crate::reference::placing::place;
use crate::reference::refusal::Refusal;
use crate::reference::transform::transform;

/// Writes the packed codeword of a packed payload; a refusal writes nothing.
pub fn encode(description: &[u8], payload: &[u8], output: &mut [u8]) -> Result<(), Refusal> {
    let code = describe(description)?;
    if payload.len() != packed_length(code.k) {
        return Err(Refusal::Number(9));
    }
    if has_unused_bit(payload, code.k) {
        return Err(Refusal::Number(10));
    }
    if output.len() != code.size() / 8 {
        return Err(Refusal::Number(11));
    }
    let x = codeword(&code, mask_of(description), &unpack(payload, code.k));
    output.copy_from_slice(&pack(&x));
    Ok(())
}

/// The codeword of k payload bits: payload, then check, placed by the mask and transformed.
pub fn codeword(code: &Code, mask: &[u8], payload: &[u8]) -> Vec<u8> {
    let check = check(payload, code.r, code.polynomial, code.start);
    transform(&place(mask, &[payload, &check].concat()))
}

/// Whether a bit after the first k is set.
fn has_unused_bit(payload: &[u8], k: usize) -> bool {
    unpack(payload, 8 * payload.len())[k..].contains(&1)
}

#[cfg(test)]
mod tests {
    use super::*;
    use crate::testing::hex::parse;
    use crate::testing::paper::{D, D_WITH_START};

    /// Encodes under D into a buffer that holds `before`.
    fn encode_d(payload: &[u8], before: &[u8]) -> (Result<(), Refusal>, Vec<u8>) {
        let mut output = before.to_vec();
        let answer = encode(&D, payload, &mut output);
        (answer, output)
    }

    fn refused(payload: &[u8], before: &[u8], number: u8) {
        let answer = Err(Refusal::Number(number));
        assert_eq!(encode_d(payload, before), (answer, before.to_vec()));
    }

    #[test]
    fn rows_of_the_paper() {
        assert_eq!(encode_d(&[0xA0], &[0xEE]), (Ok(()), vec![0x5A]));
        assert_eq!(encode_d(&[0x80], &[0xEE]), (Ok(()), vec![0x0F]));
        refused(&[0xB0], &[0xEE], 10);
    }

    /// The opposite parity stands at index 7, which is in every bit of the codeword.
    #[test]
    fn a_start_of_1_under_d() {
        for (payload, codeword) in [(0xA0, !0x5A), (0x80, !0x0F), (0x00, !0x00)] {
            let mut output = [0xEE];
            assert_eq!(encode(&D_WITH_START, &[payload], &mut output), Ok(()));
            assert_eq!(output, [codeword]);
        }
    }

    #[test]
    fn refusal_9_payload_length() {
        refused(&[], &[0xEE], 9);
        refused(&[0xA0, 0x00], &[0xEE], 9);
    }

    #[test]
    fn refusal_10_unused_bits() {
        for bit in 0..8 {
            let payload = [1 << bit];
            if bit < 5 {
                refused(&payload, &[0xEE], 10);
            } else {
                assert_eq!(encode_d(&payload, &[0xEE]).0, Ok(()));
            }
        }
    }

    #[test]
    fn refusal_11_output_length() {
        refused(&[0xA0], &[], 11);
        refused(&[0xA0], &[0xEE, 0xEE], 11);
    }

    #[test]
    fn the_first_fault_decides() {
        let bad = parse("09 00 01 00 03 01 01 00 80");
        assert_eq!(encode(&bad, &[], &mut []), Err(Refusal::Number(8)));
        refused(&[0xFF, 0xFF], &[], 9);
        refused(&[0xFF], &[], 10);
        refused(&[0xE0], &[], 11);
    }
}
