//! Cabs of both kinds of description, and states of their hearings.

use host::reference::description::{with_start, LONGEST_DESCRIPTION};
use host::reference::sizes::HEARING_SIZE;
use host::testing::cab::Cab;
use host::testing::hearing::{refusal, Call};
use host::testing::random::Random;
use host::testing::samples;

/// The places of the count and of the first value in a state.
pub const COUNT: usize = LONGEST_DESCRIPTION;
pub const VALUES: usize = COUNT + 1;

/// A cab with a description of kind 1, and one of kind 4: of codes that are useful, or of any.
pub fn of_both_kinds(random: &mut Random, n: usize, is_useful: bool) -> [Cab; 2] {
    let [plain, other] = [(); 2].map(|_| match is_useful {
        true => samples::useful_description_of_kind_1(random, n),
        false => samples::description_of_kind_1(random, n),
    });
    let start = samples::start(random, other[5].into());
    [plain, with_start(&other, start)].map(|d| Cab::new(random, d))
}

/// The state after so many adds, in a buffer that held anything.
pub fn after(random: &mut Random, cab: &Cab, adds: usize) -> Vec<u8> {
    let mut state = random.bytes(HEARING_SIZE);
    assert_eq!(cab.open().make(&mut state), 0);
    for count in 1..=adds as u64 {
        assert_eq!(cab.add(random).make(&mut state), count << 8);
    }
    state
}

/// The state of a hearing to which these were added.
pub fn heard(cab: &Cab, vectors: &[&[u8]]) -> Vec<u8> {
    let mut state = vec![0; HEARING_SIZE];
    assert_eq!(cab.open().make(&mut state), 0);
    for vector in vectors {
        let number = Call::Add(vector.to_vec()).make(&mut state);
        assert_eq!(refusal(number), 0);
    }
    state
}

/// A state that some adds, refused ones and clears among them, have left.
pub fn left(random: &mut Random, cab: &Cab) -> Vec<u8> {
    let mut state = heard(cab, &[]);
    for _ in 0..random.below(8) {
        let call = match random.below(8) {
            0 => Call::Clear,
            1 => cab.wrong_add(random, &[13]),
            _ => cab.add(random),
        };
        call.make(&mut state);
    }
    state
}
