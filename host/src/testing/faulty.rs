//! Calls of decoders, and on the state of a hearing, with faults that are put in on purpose.

use crate::reference::description::{describe, with_start, REFUSALS};
use crate::reference::hearing::{Hearing, MOST_HEARINGS};
use crate::reference::packing::packed_length;
use crate::reference::sizes::MOST_TRIALS;
use crate::testing::hearing::damage;
use crate::testing::met::Met;
use crate::testing::random::Random;
use crate::testing::samples;

/// What a call is lent; flip sets alone have `most_flips`, hearings alone a state.
pub struct Faulty {
    pub description: Vec<u8>,
    pub channel: Vec<u8>,
    pub most_flips: u32,
    pub limit: u32,
    pub before: Vec<u8>,
    pub state: Vec<u8>,
}

impl Faulty {
    /// Silence under a start other than 0, with T = 1, and a fresh hearing: nothing is wrong, and 16
    /// is the answer.
    pub fn silent(random: &mut Random) -> Faulty {
        let n = samples::layers(random);
        let d = samples::description(random, n);
        let start = samples::nonzero_start(random, d[5].into());
        let k = describe(&d).expect("a code").k;
        let d = with_start(&d, start);
        Faulty {
            state: Hearing::open(&d).expect("a hearing").to_bytes(),
            description: d,
            channel: vec![0; 1 << n],
            most_flips: samples::most_flips(random),
            limit: 1,
            before: random.bytes(packed_length(k)),
        }
    }

    /// Changes the call so that a refusal applies which is not of its description.
    pub fn put_fault(&mut self, random: &mut Random, refusal: usize) {
        let size = self.channel.len();
        match refusal {
            12 => {
                let length = [size / 2, size - 1, size + 1, 2 * size][random.below(4)];
                self.channel.resize(length, 0);
            }
            13 => {
                let place = random.below(size / 2);
                self.channel[place] = samples::value_out_of_range(random);
            }
            26 => self.most_flips = samples::wrong_most_flips(random),
            14 => self.limit = [0, MOST_TRIALS as u32 + 1, u32::MAX][random.below(3)],
            15 => {
                let length = self.before.len();
                let other = [0, length - 1, length + 1, 2 * length][random.below(4)];
                self.before.resize(other, 0xEE);
            }
            27 => {
                let mut hearing = Hearing::from_bytes(&self.state).expect("a hearing");
                hearing.count = MOST_HEARINGS;
                self.state = hearing.to_bytes();
            }
            40 => damage(random, &mut self.state),
            _ => panic!("a call has no refusal {refusal}"),
        }
    }

    /// Puts in the faults of these refusals, which stand in their order, those of later ones first;
    /// nothing where the description cannot have one.
    fn with_faults(random: &mut Random, refusals: &[usize]) -> Option<Faulty> {
        let mut call = Faulty::silent(random);
        let (of_description, own): (Vec<usize>, Vec<usize>) = refusals
            .iter()
            .partition(|refusal| REFUSALS.contains(refusal));
        for refusal in own.into_iter().rev() {
            call.put_fault(random, refusal);
        }
        let can_break = |&refusal: &usize| samples::can_break(&call.description, refusal);
        of_description.iter().all(can_break).then(|| {
            samples::put_faults(random, &mut call.description, &of_description);
            call
        })
    }
}

/// Each refusal of a list alone, and of two that apply the first; `refusal` makes the call. Gives those
/// met.
pub fn each_pair(order: &[usize], refusal: impl Fn(&Faulty) -> usize) -> Met {
    let mut random = Random::new(1);
    let mut met = Met::default();
    for (index, &first) in order.iter().enumerate() {
        for &second in &order[index..] {
            let mut faults = vec![first, second];
            faults.dedup();
            for call in (0..60).filter_map(|_| Faulty::with_faults(&mut random, &faults)) {
                let refusal = refusal(&call);
                assert_eq!(refusal, first, "{faults:?}");
                met.count(refusal);
            }
        }
    }
    met
}
