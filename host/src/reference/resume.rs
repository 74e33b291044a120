//! Resume: document 01, "Resume".

use crate::reference::channel::read_channel;
use crate::reference::description::{describe, is_information, mask_of};
use crate::reference::pass::{pass, plain_rules};
use crate::reference::refusal::Refusal;

/// Writes all N bits: the prefix, then the decisions of a pass whose first bits were forced to it.
/// Answers the steps; a refusal writes nothing.
pub fn resume(
    description: &[u8],
    channel: &[u8],
    prefix: &[u8],
    output: &mut [u8],
) -> Result<usize, Refusal> {
    let code = describe(description)?;
    let values = read_channel(channel, code.size())?;
    if prefix.len() > code.size() {
        return Err(Refusal::Number(17));
    }
    let mask = mask_of(description);
    if let Some(index) = first_bad_bit(prefix, mask) {
        return Err(Refusal::At(18, index));
    }
    if output.len() != code.size() {
        return Err(Refusal::Number(19));
    }
    let pass = pass(&values, prefix, &plain_rules(mask));
    output.copy_from_slice(&pass.bits);
    Ok(pass.steps)
}

/// The first prefix byte that is neither 0 nor 1, or that is 1 at a frozen index.
fn first_bad_bit(prefix: &[u8], mask: &[u8]) -> Option<usize> {
    (0..prefix.len()).find(|&index| match prefix[index] {
        0 => false,
        1 => !is_information(mask, index),
        _ => true,
    })
}

#[cfg(test)]
mod tests {
    use super::*;
    use crate::testing::hex::parse;
    use crate::testing::paper::{D, V};

    /// Resumes under D into a buffer that holds `before`.
    fn resume_d(channel: &[u8], prefix: &[u8], before: &[u8]) -> (Result<usize, Refusal>, Vec<u8>) {
        let mut output = before.to_vec();
        let answer = resume(&D, channel, prefix, &mut output);
        (answer, output)
    }

    fn refused(channel: &[u8], prefix: &[u8], before: &[u8], refusal: Refusal) {
        let expected = (Err(refusal), before.to_vec());
        assert_eq!(resume_d(channel, prefix, before), expected);
    }

    #[test]
    fn rows_of_the_paper() {
        let zeros = vec![0; 8];
        assert_eq!(resume_d(&V, &[0; 6], &[0xEE; 8]), (Ok(8), zeros));
        let at_7 = |byte| [0, 0, 0, 0, 0, 0, 0, byte];
        assert_eq!(resume_d(&at_7(0x1F), &[], &[0xEE; 8]).0, Ok(24));
        refused(&at_7(0x20), &[], &[0xEE; 8], Refusal::At(13, 7));
        refused(&at_7(0xE0), &[], &[0xEE; 8], Refusal::At(13, 7));
        let steps = [0, 1, 6, 7, 8].map(|q| resume_d(&V, &vec![0; q], &[0xEE; 8]).0);
        assert_eq!(steps, [24, 23, 8, 7, 0].map(Ok));
    }

    #[test]
    fn a_whole_prefix_is_the_answer() {
        let prefix = [0, 0, 0, 1, 0, 1, 0, 1];
        let expected = (Ok(0), prefix.to_vec());
        assert_eq!(resume_d(&V, &prefix, &[0xEE; 8]), expected);
    }

    #[test]
    fn refusal_12_channel_length() {
        refused(&[0; 7], &[], &[0xEE; 8], Refusal::Number(12));
        refused(&[0; 9], &[], &[0xEE; 8], Refusal::Number(12));
    }

    #[test]
    fn refusal_17_prefix_length() {
        refused(&[0; 8], &[0; 9], &[0xEE; 8], Refusal::Number(17));
    }

    /// Index 3 is the first information index, 4 is frozen.
    #[test]
    fn refusal_18_prefix_bytes() {
        let refused_at = |prefix: &[u8], index| {
            refused(&[0; 8], prefix, &[0xEE; 8], Refusal::At(18, index));
        };
        refused_at(&[1], 0);
        refused_at(&[0, 0, 1, 1], 2);
        refused_at(&[0, 0, 0, 2], 3);
        refused_at(&[0, 0, 0, 1, 1, 255], 4);
        refused_at(&[0, 0, 0, 1, 0, 255, 1, 2], 5);
        assert_eq!(resume_d(&[0; 8], &[0, 0, 0, 1], &[0xEE; 8]).0, Ok(24 - 12));
    }

    #[test]
    fn refusal_19_output_length() {
        refused(&[0; 8], &[], &[0xEE; 7], Refusal::Number(19));
        refused(&[0; 8], &[], &[0xEE; 9], Refusal::Number(19));
        refused(&[0; 8], &[], &[], Refusal::Number(19));
    }

    #[test]
    fn the_first_fault_decides() {
        let bad = parse("09 00 01 00 03 01 01 00 80");
        let answer = resume(&bad, &[], &[2; 9], &mut []);
        assert_eq!(answer, Err(Refusal::Number(8)));
        refused(&[0x80; 9], &[2; 9], &[], Refusal::Number(12));
        refused(&[0x80; 8], &[2; 9], &[], Refusal::At(13, 0));
        refused(&[0; 8], &[2; 9], &[], Refusal::Number(17));
        refused(&[0; 8], &[2; 8], &[], Refusal::At(18, 0));
        refused(&[0; 8], &[0; 8], &[], Refusal::Number(19));
    }
}
