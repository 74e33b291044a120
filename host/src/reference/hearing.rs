//! Hearings, which combine the repeats of a frame: document 02, requests 2.6 and 2.7. `state` has them
//! as the bytes that C lends.

pub mod state;

use crate::reference::channel::{clip, read_channel, value_byte};
use crate::reference::description::describe;
use crate::reference::flip::{self, Accepted};
use crate::reference::refusal::Refusal;
use crate::reference::restart::Restart;

/// The count at which nothing more is added.
pub const MOST_HEARINGS: usize = 255;

/// The description of a code, its N combined values, and how many vectors were added to them.
#[derive(Clone, Debug, PartialEq, Eq)]
pub struct Hearing {
    pub description: Vec<u8>,
    pub values: Vec<i64>,
    pub count: usize,
}

impl Hearing {
    /// N zeros and count 0, or the refusal of the description.
    pub fn open(description: &[u8]) -> Result<Hearing, Refusal> {
        let code = describe(description)?;
        Ok(Hearing {
            description: description.to_vec(),
            values: vec![0; code.size()],
            count: 0,
        })
    }

    /// Adds a vector value by value and clips each sum. Gives the count; a refusal changes nothing.
    pub fn add(&mut self, channel: &[u8]) -> Result<usize, Refusal> {
        let heard = read_channel(channel, self.values.len())?;
        if self.count == MOST_HEARINGS {
            return Err(Refusal::Number(27));
        }
        for (value, heard) in self.values.iter_mut().zip(heard) {
            *value = clip(*value + heard);
        }
        self.count += 1;
        Ok(self.count)
    }

    /// Returns to zeros and count 0.
    pub fn clear(&mut self) {
        self.values.fill(0);
        self.count = 0;
    }

    /// Decodes the combined values. Writes the packed payload; a refusal writes nothing.
    pub fn decode(
        &self,
        restart: Restart,
        limit: u32,
        output: &mut [u8],
    ) -> Result<Accepted, Refusal> {
        flip::decode(restart, &self.description, &self.channel(), limit, output)
    }

    /// What adding a vector and restarted decoding would give: both are made on a copy, and a refused
    /// add ends it there. Writes the packed payload; a refusal writes nothing.
    pub fn preview(
        &self,
        channel: &[u8],
        limit: u32,
        output: &mut [u8],
    ) -> Result<Accepted, Refusal> {
        let mut copy = self.clone();
        copy.add(channel)?;
        copy.decode(Restart::AfterFlip, limit, output)
    }

    /// The combined values as the bytes of a channel.
    pub fn channel(&self) -> Vec<u8> {
        self.values.iter().map(|&value| value_byte(value)).collect()
    }
}

#[cfg(test)]
mod tests {
    use super::*;
    use crate::testing::paper::{right, D, D_WITH_START, RIGHT, V};

    /// Trial 1 of a code of N = 8 fails, and the output holds EE as before.
    const FAILED: (Result<Accepted, Refusal>, u8) = (
        Err(Refusal::AllFailed {
            trials: 1,
            steps: 24,
        }),
        0xEE,
    );

    fn open(d: &[u8]) -> Hearing {
        Hearing::open(d).expect("a hearing")
    }

    /// A hearing of D to which these were added.
    fn heard(vectors: &[[u8; 8]]) -> Hearing {
        let mut hearing = open(&D);
        for (index, vector) in vectors.iter().enumerate() {
            assert_eq!(hearing.add(vector), Ok(index + 1));
        }
        hearing
    }

    /// A vector that has this value first, then its opposite, then zeros.
    fn first(value: i64) -> [u8; 8] {
        [value_byte(value), value_byte(-value), 0, 0, 0, 0, 0, 0]
    }

    fn accepted(trial: usize, steps: usize, payload: u8) -> (Result<Accepted, Refusal>, u8) {
        (Ok(Accepted { trial, steps }), payload)
    }

    /// Decodes into a byte that holds EE.
    fn decode(hearing: &Hearing, restart: Restart, limit: u32) -> (Result<Accepted, Refusal>, u8) {
        let mut output = [0xEE];
        let answer = hearing.decode(restart, limit, &mut output);
        (answer, output[0])
    }

    /// Previews into a byte that holds EE; the hearing stays what it was.
    fn preview(hearing: &Hearing, channel: &[u8], limit: u32) -> (Result<Accepted, Refusal>, u8) {
        let mut output = [0xEE];
        let before = hearing.clone();
        let answer = hearing.preview(channel, limit, &mut output);
        assert_eq!(*hearing, before);
        (answer, output[0])
    }

    #[test]
    fn a_fresh_hearing() {
        let hearing = open(&D_WITH_START);
        assert_eq!(hearing.description, D_WITH_START);
        assert_eq!((hearing.values, hearing.count), (vec![0; 8], 0));
        let refused = Hearing::open(&D[..8]);
        assert_eq!(refused, Err(Refusal::Number(2)));
    }

    #[test]
    fn values_are_added_one_by_one() {
        assert_eq!(heard(&[V]).values, [-1, 3, 2, 2, -2, -2, 3, 2]);
        let both = heard(&[V, RIGHT]);
        assert_eq!(both.values, [3, -1, 6, -2, -6, 2, -1, 6]);
        assert_eq!(both.channel(), [3, 255, 6, 254, 250, 2, 255, 6]);
    }

    /// 20 + 20 is 31 and not 40, and with −31 it is 0 and not 9.
    #[test]
    fn each_sum_is_clipped() {
        let ends = |vectors: &[[u8; 8]]| heard(vectors).values[..2].to_vec();
        assert_eq!(ends(&[first(20), first(20)]), [31, -31]);
        assert_eq!(ends(&[first(20), first(20), first(-31)]), [0, 0]);
        assert_eq!(ends(&[first(20), first(-31), first(20)]), [9, -9]);
        assert_eq!(ends(&[first(-31), first(20), first(20)]), [9, -9]);
        assert_eq!(ends(&[first(30), first(1)]), [31, -31]);
        assert_eq!(ends(&[first(31), first(1), first(-1)]), [30, -30]);
        assert_eq!(ends(&[first(31), first(31), first(-31)]), [0, 0]);
    }

    #[test]
    fn clearing() {
        let mut hearing = heard(&[V, RIGHT]);
        hearing.clear();
        assert_eq!(hearing, open(&D));
        assert_eq!(hearing.add(&V), Ok(1));
        assert_eq!(hearing, heard(&[V]));
    }

    /// Neither V nor twice V passes on trial 1; together with right signs it does.
    #[test]
    fn combined_values_are_decoded() {
        for (restart, steps) in [(Restart::Full, 48), (Restart::AfterFlip, 32)] {
            let of = |hearing: &Hearing, limit| decode(hearing, restart, limit);
            for hearing in [heard(&[V]), heard(&[V, V])] {
                assert_eq!(of(&hearing, 1), FAILED);
                assert_eq!(of(&hearing, 2), accepted(2, steps, 0x00));
            }
            assert_eq!(of(&heard(&[V, RIGHT]), 1), accepted(1, 24, 0xA0));
            assert_eq!(of(&open(&D), 1), accepted(1, 24, 0x00));
            assert_eq!(of(&open(&D_WITH_START), 1), FAILED);
        }
    }

    #[test]
    fn refusals_of_decoding() {
        for restart in [Restart::Full, Restart::AfterFlip] {
            let refused = |limit, room: usize| {
                let mut output = vec![0xEE; room];
                heard(&[V]).decode(restart, limit, &mut output)
            };
            assert_eq!(refused(0, 2), Err(Refusal::Number(14)));
            assert_eq!(refused(6, 1), Err(Refusal::Number(14)));
            assert_eq!(refused(1, 2), Err(Refusal::Number(15)));
            assert_eq!(refused(5, 0), Err(Refusal::Number(15)));
        }
    }

    /// A refused add changes nothing; 27 comes after 12 and 13.
    #[test]
    fn refusals_of_adding() {
        let mut outside = RIGHT;
        outside[5] = 32;
        for vectors in [vec![], vec![V], vec![RIGHT; MOST_HEARINGS]] {
            let before = heard(&vectors);
            let mut hearing = before.clone();
            assert_eq!(hearing.add(&RIGHT[..7]), Err(Refusal::Number(12)));
            assert_eq!(hearing.add(&[0x80; 9]), Err(Refusal::Number(12)));
            assert_eq!(hearing.add(&outside), Err(Refusal::At(13, 5)));
            assert_eq!(hearing, before);
        }
    }

    #[test]
    fn the_count_is_255_at_most() {
        let mut hearing = heard(&[V; MOST_HEARINGS - 1]);
        assert_eq!(hearing.add(&RIGHT), Ok(255));
        let full = hearing.clone();
        assert_eq!(full.values, [-27, 27, 31, 27, -31, -27, 27, 31]);
        assert_eq!(hearing.add(&RIGHT), Err(Refusal::Number(27)));
        assert_eq!(hearing.add(&[0; 8]), Err(Refusal::Number(27)));
        assert_eq!(hearing, full);
        hearing.clear();
        assert_eq!(hearing.add(&RIGHT), Ok(1));
    }

    /// V alone fails trial 1, and so does twice V; right signs would settle it, with V and without.
    /// Restarted decoding makes 8 steps in trial 2 of twice V, and full decoding 24.
    #[test]
    fn previews_of_d() {
        let held = heard(&[V]);
        for _ in 0..3 {
            assert_eq!(decode(&held, Restart::AfterFlip, 1), FAILED);
            assert_eq!(preview(&held, &RIGHT, 1), accepted(1, 24, 0xA0));
            assert_eq!(preview(&held, &V, 1), FAILED);
            assert_eq!(preview(&held, &V, 2), accepted(2, 32, 0x00));
        }
        assert_eq!(preview(&open(&D), &RIGHT, 1), accepted(1, 24, 0xA0));
        assert_eq!(held.count, 1);
        assert_eq!(held.values, [-1, 3, 2, 2, -2, -2, 3, 2]);
    }

    /// Twice 31 is held as 31: −31 more would leave 0, which is silence, and −30 would leave right signs.
    /// −9 and 31 are 22.
    #[test]
    fn previewed_sums_are_clipped() {
        let held = heard(&[right(31), right(31)]);
        assert_eq!(preview(&held, &right(-31), 1), accepted(1, 24, 0x00));
        assert_eq!(preview(&held, &right(-30), 1), accepted(1, 24, 0xA0));
        let held = heard(&[right(-9), right(31)]);
        assert_eq!(preview(&held, &right(-22), 1), accepted(1, 24, 0x00));
    }

    /// Those of the add come before those of decoding.
    #[test]
    fn refusals_of_previews() {
        let mut outside = RIGHT;
        outside[5] = 32;
        let refused = |hearing: &Hearing, channel: &[u8], limit, room: usize| {
            let mut output = vec![0xEE; room];
            let answer = hearing.preview(channel, limit, &mut output);
            assert_eq!(output, vec![0xEE; room]);
            answer.expect_err("a refusal")
        };
        for hearing in [open(&D), heard(&[V]), heard(&[V; MOST_HEARINGS])] {
            let of = |channel: &[u8]| refused(&hearing, channel, 0, 2);
            assert_eq!(of(&RIGHT[..7]), Refusal::Number(12));
            assert_eq!(of(&[0x80; 9]), Refusal::Number(12));
            assert_eq!(of(&outside), Refusal::At(13, 5));
        }
        let of = |limit, room| refused(&heard(&[V]), &RIGHT, limit, room);
        assert_eq!(of(0, 2), Refusal::Number(14));
        assert_eq!(of(6, 1), Refusal::Number(14));
        assert_eq!(of(1, 2), Refusal::Number(15));
        assert_eq!(of(5, 0), Refusal::Number(15));
    }

    /// The 255th vector may be tried; then nothing more is, whatever decoding would say.
    #[test]
    fn previews_of_a_full_hearing() {
        let mut hearing = heard(&[RIGHT; MOST_HEARINGS - 1]);
        assert_eq!(preview(&hearing, &RIGHT, 1), accepted(1, 24, 0xA0));
        assert_eq!(hearing.add(&RIGHT), Ok(255));
        let full = (Err(Refusal::Number(27)), 0xEE);
        for limit in [0, 1, 6] {
            assert_eq!(preview(&hearing, &RIGHT, limit), full);
            assert_eq!(preview(&hearing, &[0; 8], limit), full);
        }
    }
}
