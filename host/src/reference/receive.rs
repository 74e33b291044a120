//! The program `receive`: document 01, "Program `receive`", and document 02, request 2.1.

use crate::reference::description::{describe, word, Code};
use crate::reference::flip::decode;
use crate::reference::packing::packed_length;
use crate::reference::restart::Restart;

/// All that the program prints for an input.
pub fn receive(input: &[u8]) -> String {
    let mut printed = String::new();
    let mut receiver = Receiver { held: None };
    let mut records = 0;
    let mut rest = input;
    while !rest.is_empty() {
        let Some((record, after)) = first_record(rest) else {
            printed += "cut\n";
            break;
        };
        printed += &format!("{}\n", receiver.respond(record));
        records += 1;
        rest = after;
    }
    printed + &format!("end {records}\n")
}

/// The first record, and what follows it; nothing where the input ends inside it, or where its
/// length is below 4.
pub fn first_record(input: &[u8]) -> Option<(&[u8], &[u8])> {
    let length = usize::from(word_at(input, 0)?);
    if length < 4 {
        return None;
    }
    input.split_at_checked(length)
}

/// Two bytes from `place` on, little-endian; nothing where the bytes end before.
fn word_at(bytes: &[u8], place: usize) -> Option<u16> {
    (place + 2 <= bytes.len()).then(|| word(bytes, place))
}

/// The last accepted description, and its code.
struct Receiver<'a> {
    held: Option<(&'a [u8], Code)>,
}

impl<'a> Receiver<'a> {
    /// The line for one record of at least 4 bytes.
    fn respond(&mut self, record: &'a [u8]) -> String {
        match word(record, 2) {
            1 | 4 => self.respond_to_description(record),
            2 => self.respond_to_channel(record),
            kind => format!("skip {kind}"),
        }
    }

    fn respond_to_description(&mut self, record: &'a [u8]) -> String {
        match describe(record) {
            Ok(code) => {
                self.held = Some((record, code));
                format!("code {} {} {}", code.size(), code.k, code.r)
            }
            Err(refusal) => format!("no {refusal}"),
        }
    }

    fn respond_to_channel(&self, record: &[u8]) -> String {
        let Some((description, code)) = self.held else {
            return "no 23".to_string();
        };
        let Some(limit) = word_at(record, 4) else {
            return "no 24".to_string();
        };
        let mut payload = vec![0; packed_length(code.k)];
        let (restart, limit) = (Restart::AfterFlip, limit.into());
        match decode(restart, description, &record[6..], limit, &mut payload) {
            Ok(accepted) => {
                let payload = hexadecimal(&payload);
                format!("ok {} {} {payload}", accepted.trial, accepted.steps)
            }
            Err(refusal) => format!("no {}", refusal.number()),
        }
    }
}

/// Two lower-case digits for each byte.
pub fn hexadecimal(bytes: &[u8]) -> String {
    bytes.iter().map(|byte| format!("{byte:02x}")).collect()
}

#[cfg(test)]
mod tests {
    use super::*;
    use crate::reference::sizes::LONGEST_RECORD;
    use crate::testing::hex::parse;
    use crate::testing::paper::{D, D_WITH_START, V};
    use crate::testing::streams::channel;

    fn prints(input: &[Vec<u8>], lines: &[&str]) {
        let expected: String = lines.iter().map(|line| format!("{line}\n")).collect();
        assert_eq!(receive(&input.concat()), expected);
    }

    #[test]
    fn the_example_of_the_paper() {
        let input = [D.to_vec(), channel(2, &V), channel(1, &V)];
        prints(&input, &["code 8 3 1", "ok 2 32 00", "no 16", "end 3"]);
    }

    /// Request 2.1: silence under D with start 1, and then under D.
    #[test]
    fn silence() {
        let [once, twice] = [1, 2].map(|limit| channel(limit, &[0; 8]));
        let input = [D_WITH_START.to_vec(), once.clone(), twice, D.to_vec(), once];
        let lines = [
            "code 8 3 1",
            "no 16",
            "ok 2 35 80",
            "code 8 3 1",
            "ok 1 24 00",
            "end 5",
        ];
        prints(&input, &lines);
    }

    #[test]
    fn nothing() {
        prints(&[], &["end 0"]);
    }

    /// Every beginning of the example: whole records count, and a part of one is cut.
    #[test]
    fn cut_anywhere() {
        let input = [D.to_vec(), channel(2, &V)].concat();
        for length in 0..input.len() {
            let lines: &[&str] = match length {
                0 => &["end 0"],
                1..9 => &["cut", "end 0"],
                9 => &["code 8 3 1", "end 1"],
                _ => &["code 8 3 1", "cut", "end 1"],
            };
            prints(&[input[..length].to_vec()], lines);
        }
    }

    #[test]
    fn a_length_below_4_ends_the_reading() {
        for length in 0..4 {
            let input = [D.to_vec(), vec![length, 0, 1, 0], D.to_vec()];
            prints(&input, &["code 8 3 1", "cut", "end 1"]);
        }
    }

    #[test]
    fn other_kinds_are_skipped() {
        let input = ["04 00 00 00", "05 00 03 00 FF", "06 00 FF FF 01 00"].map(parse);
        prints(&input, &["skip 0", "skip 3", "skip 65535", "end 3"]);
        let input = ["04 00 05 00", "04 00 04 01", "04 00 01 08"].map(parse);
        prints(&input, &["skip 5", "skip 260", "skip 2049", "end 3"]);
    }

    #[test]
    fn channel_records_before_a_description() {
        let bad = parse("09 00 01 00 03 01 01 00 80");
        let short = parse("05 00 02 00 01");
        prints(
            &[channel(2, &V), short.clone(), bad, channel(2, &V)],
            &["no 23", "no 23", "no 8", "no 23", "end 4"],
        );
        prints(&[D.to_vec(), short], &["code 8 3 1", "no 24", "end 2"]);
        let bare = parse("04 00 02 00");
        prints(&[D.to_vec(), bare], &["code 8 3 1", "no 24", "end 2"]);
    }

    #[test]
    fn a_refused_description_changes_nothing() {
        let bad = parse("09 00 01 00 03 01 01 00 80");
        let bad_start = parse("0B 00 04 00 03 01 01 00 02 00 E8");
        prints(
            &[D.to_vec(), bad.clone(), bad_start.clone(), channel(2, &V)],
            &["code 8 3 1", "no 8", "no 25", "ok 2 32 00", "end 4"],
        );
        let silence = channel(2, &[0; 8]);
        prints(
            &[D_WITH_START.to_vec(), bad, bad_start, silence],
            &["code 8 3 1", "no 8", "no 25", "ok 2 35 80", "end 4"],
        );
    }

    /// Of 8 and of 9 bytes kind 4 is refused 1; of the other kind's length a description is refused
    /// 5.
    #[test]
    fn refused_lengths_of_kind_4() {
        let input = [
            "04 00 04 00",
            "08 00 04 00 03 01 01 00",
            "09 00 04 00 03 01 01 00 E8",
            "0A 00 04 00 04 01 01 00 FF FF",
            "0B 00 01 00 03 01 01 00 01 00 E8",
        ];
        let lines = ["no 1", "no 1", "no 1", "no 5", "no 5", "end 5"];
        prints(&input.map(parse), &lines);
    }

    #[test]
    fn the_last_accepted_description_is_held() {
        let one_bit = parse("09 00 01 00 03 01 01 00 C0");
        let x = channel(1, &parse("01 FF 01 FF 01 FF 01 FF"));
        prints(
            &[D.to_vec(), x.clone(), one_bit, x],
            &[
                "code 8 3 1",
                "ok 1 24 20",
                "code 8 1 1",
                "ok 1 24 80",
                "end 4",
            ],
        );
    }

    #[test]
    fn refusals_of_a_channel_record() {
        let input = [
            D.to_vec(),
            parse("04 00 01 00"),
            channel(1, &[]),
            channel(1, &[0; 7]),
            channel(1, &[0, 0, 0, 0, 0, 0, 32, 0]),
            channel(0, &[0; 8]),
            channel(6, &[0; 8]),
            channel(5, &parse("04 FC 04 FC FC 04 FC 04")),
        ];
        let lines = [
            "code 8 3 1",
            "no 1",
            "no 12",
            "no 12",
            "no 13",
            "no 14",
            "no 14",
            "ok 1 24 a0",
            "end 8",
        ];
        prints(&input, &lines);
    }

    #[test]
    fn the_longest_record() {
        let mut long = vec![0; LONGEST_RECORD];
        long[..4].copy_from_slice(&[0xFF, 0xFF, 2, 0]);
        let cut = long[..LONGEST_RECORD - 1].to_vec();
        let input = [D.to_vec(), long, cut];
        prints(&input, &["code 8 3 1", "no 12", "cut", "end 2"]);
    }
}
