//! What is accepted is a codeword, that of the payload which is written: the codeword of this payload is
//! the transform of the bits of the trial that is accepted, also if another payload was sent. All six
//! decoders, in more than 170,000 calls.

use host::reference::encode::encode;
use host::reference::frame::Frame;
use host::reference::packing::unpack;
use host::reference::restart::Restart;
use host::reference::sets::sets_tried;
use host::reference::transform::transform;
use host::testing::call::Call;
use host::testing::decoders::{self, flipped};
use host::testing::outcomes::Outcomes;
use host::testing::random::Random;
use host::testing::samples;
use host::testing::sets::{self, Lent};

/// What became of frames, and how often a payload was accepted that was not sent.
#[derive(Debug, Default)]
struct Met {
    outcomes: Outcomes,
    wrong: usize,
}

impl Met {
    /// Counts an answer and its output; gives the trial that is accepted.
    fn count(&mut self, call: &Call, answer: u64, output: &[u8]) -> Option<usize> {
        self.outcomes.count_number(answer);
        let is_accepted = answer & 0xFF == 0;
        self.wrong += usize::from(is_accepted && output != call.payload);
        is_accepted.then_some((answer >> 8 & 0xFF_FFFF) as usize)
    }

    /// That each came about at least so often.
    fn at_least(&self, least: usize) {
        self.outcomes.at_least(least);
        assert!(self.wrong >= least, "{self:?}");
    }
}

/// That the codeword of a packed payload is the transform of the bits of the trial that flips a set;
/// trial 1 flips none.
fn check_codeword(restart: Restart, call: &Call, set: &[usize], payload: &[u8]) {
    let frame = Frame::read(&call.description, &call.channel).expect("a frame");
    let first = frame.first_trial();
    let bits = match set {
        [] => first.bits,
        _ => restart.trial(&frame, &first, set).bits,
    };
    let mut codeword = vec![0; bits.len() / 8];
    let answer = encode(&call.description, payload, &mut codeword);
    assert_eq!(answer, Ok(()), "{:02x?}", call.description);
    assert_eq!(unpack(&codeword, bits.len()), transform(&bits), "{set:?}");
}

/// The decoders by single flips.
fn check_flips(call: &Call, before: &[u8], met: &mut Met) {
    let (d, channel) = (&call.description, &call.channel);
    for (restart, decoder) in Restart::ALL.into_iter().zip(decoders::ALL) {
        let (answer, output) = decoder.run(d, channel, call.limit, before);
        if let Some(trial) = met.count(call, answer, &output) {
            let set = flipped(d, channel, trial).pop();
            check_codeword(restart, call, set.as_slice(), &output);
        }
    }
}

/// The decoders by flip sets.
fn check_sets(call: &Call, before: &[u8], met: &mut Met) {
    let frame = Frame::read(&call.description, &call.channel).expect("a frame");
    let sets = sets_tried(&frame, call.most_flips, call.limit);
    let of = Lent {
        description: &call.description,
        channel: &call.channel,
        most_flips: call.most_flips,
        limit: call.limit,
    };
    for (restart, decoder) in Restart::ALL.into_iter().zip(sets::ALL) {
        let (answer, output) = decoder.run(of, before);
        if let Some(trial) = met.count(call, answer, &output) {
            check_codeword(restart, call, &sets[trial - 1], &output);
        }
    }
}

#[test]
fn what_is_accepted_is_the_codeword_of_what_is_written() {
    let mut random = Random::new(1);
    for n in 3..=8 {
        let (mut flips, mut sets) = (Met::default(), Met::default());
        for round in 0..120_000 >> n {
            let d = samples::useful_description(&mut random, n);
            let call = Call::new(&mut random, d, [4, 8, 12, 16][round % 4]);
            let before = random.bytes(call.room[2]);
            check_flips(&call, &before, &mut flips);
            check_sets(&call, &before, &mut sets);
        }
        println!("n = {n}: {flips:?}, sets: {sets:?}");
        flips.at_least(20);
        sets.at_least(20);
    }
}
