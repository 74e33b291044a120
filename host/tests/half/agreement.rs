//! The decoders beside each other, without the reference.

use host::reference::sizes::LAYERS;
use host::testing::call::Call;
use host::testing::lent::answers;
use host::testing::random::Random;
use host::testing::samples;

use crate::middle::{channel, description, middle};

/// Refusal 16: all trials fail.
const ALL_FAILED: u64 = 16;

/// How often restarted, half and full decoding made equally many steps, how often restarted decoding
/// alone made fewer, and how often each made fewer than the next.
#[derive(Debug, Default)]
struct Steps {
    equal: usize,
    left: usize,
    right: usize,
}

impl Steps {
    /// That answers and outputs of full, half and restarted decoding are the same but for steps, and
    /// that these are in order.
    fn check(&mut self, decoded: [(u64, Vec<u8>); 3]) {
        let parts = decoded
            .each_ref()
            .map(|(answer, output)| (answer & 0xFFFF_FFFF, output));
        assert_eq!(parts, [parts[0]; 3]);
        let steps = decoded.each_ref().map(|(answer, _)| answer >> 32);
        let [full, half, restarted] = steps;
        let refusal = parts[0].0 & 0xFF;
        if refusal > 0 && refusal != ALL_FAILED {
            return assert_eq!(steps, [0; 3]);
        }
        assert!(restarted <= half && half <= full, "{steps:?}");
        let is_one_trial = parts[0].0 >> 8 == 1;
        assert_eq!(restarted == half, is_one_trial, "{steps:?}");
        match (is_one_trial, half == full) {
            (true, _) => {
                assert_eq!(half, full);
                self.equal += 1
            }
            (false, true) => self.left += 1,
            (false, false) => self.right += 1,
        }
    }

    /// That each came about at least so often.
    fn at_least(&self, least: usize) {
        let each = [self.equal, self.left, self.right];
        assert!(each.iter().all(|&count| count >= least), "{self:?}");
    }
}

/// Few information indices and any values, or a codeword under noise; some calls have a fault.
fn call(random: &mut Random, n: usize, round: usize) -> Call {
    let few = round % 2 == 0;
    let d = match few {
        true => description(random, n, &middle(n), 9),
        false => samples::useful_description(random, n),
    };
    let mut call = Call::new(random, d, [4, 8, 12][round % 3]);
    if few {
        call.channel = channel(random, n);
    }
    call.spoil(random);
    call
}

#[test]
fn restarted_half_and_full_decoding_agree() {
    let mut random = Random::new(1);
    for n in LAYERS {
        let (mut flips, mut sets) = (Steps::default(), Steps::default());
        for round in 0..(40_000 >> n).max(400) {
            let call = call(&mut random, n, round);
            let [_, _, full, restarted, sets_full, sets_restarted, half, sets_half] =
                answers(&call, &call.description);
            flips.check([full, half, restarted]);
            sets.check([sets_full, sets_half, sets_restarted]);
        }
        println!("n = {n}: {flips:?}, sets: {sets:?}");
        flips.at_least(10);
        sets.at_least(10);
    }
}
