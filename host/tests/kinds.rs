//! The library on descriptions of both kinds of the same code: with start 0 kind 4 answers as kind 1
//! does, byte for byte, and another start changes the check alone.

use host::reference::description::with_start;
use host::reference::sizes::LAYERS;
use host::testing::call::for_calls;
use host::testing::lent::answers;
use host::testing::met::Met;
use host::testing::random::Random;
use host::testing::samples;

/// Now and then changes a byte that both kinds have, from n on.
fn damage(random: &mut Random, d: &mut [u8]) {
    if random.below(6) == 0 {
        let place = random.between(4, 9.min(d.len() - 1));
        d[place] = [random.byte(), d[place] ^ 1 << random.below(8)][random.below(2)];
    }
}

#[test]
fn start_0_answers_as_kind_1() {
    let mut met: [Met; 8] = Default::default();
    for_calls(1, LAYERS, |random, mut call| {
        damage(random, &mut call.description);
        let plain = answers(&call, &call.description);
        assert_eq!(answers(&call, &with_start(&call.description, 0)), plain);
        for (met, (answer, _)) in met.iter_mut().zip(&plain) {
            met.count((answer & 0xFF) as usize);
        }
    });
    let [encoded, resumed, full, restarted, sets_full, sets_restarted, half, sets_half] = met;
    const DESCRIPTION: [usize; 6] = [0, 4, 5, 6, 7, 8];
    encoded.are_all(&[&DESCRIPTION, &[9, 10, 11]]);
    resumed.are_all(&[&DESCRIPTION, &[12, 13, 17, 18, 19]]);
    for met in [full, half, restarted] {
        met.are_all(&[&DESCRIPTION, &[12, 13, 14, 15, 16]]);
    }
    for met in [sets_full, sets_half, sets_restarted] {
        met.are_all(&[&DESCRIPTION, &[12, 13, 26, 14, 15, 16]]);
    }
}

/// A start other than 0 makes another check of every payload, and a pass has no check.
#[test]
fn another_start_changes_the_codeword_and_no_pass() {
    for_calls(2, LAYERS, |random, call| {
        let start = samples::nonzero_start(random, call.description[5].into());
        let [plain, resumed, ..] = answers(&call, &call.description);
        let [changed, same, ..] = answers(&call, &with_start(&call.description, start));
        assert_eq!(resumed, same);
        assert_eq!(plain.0, changed.0);
        assert_eq!(plain == changed, plain.0 != 0, "{start:x} {plain:?}");
    });
}
