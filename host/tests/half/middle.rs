//! Codes with information indices at and beside the middle.

use host::reference::description::record;
use host::testing::random::Random;
use host::testing::samples;

/// N/2 − 1, N/2 and N/2 + 1.
pub fn middle(n: usize) -> [usize; 3] {
    let half = 1 << (n - 1);
    [half - 1, half, half + 1]
}

/// A code with these information indices and 2 to `most` others, some of which may be among them; its
/// check is so wide that few wrong trials pass.
pub fn description(random: &mut Random, n: usize, information: &[usize], most: usize) -> Vec<u8> {
    let others = random.between(2, most);
    let mut mask = samples::mask(random, 1 << n, others);
    for &index in information {
        mask[index] = true;
    }
    let ones = mask.iter().filter(|&&one| one).count();
    let r = 16.min(ones - 1);
    record(n, r, samples::polynomial(random, r), &mask)
}

/// Values of a magnitude up to 1, 3 or 31.
pub fn channel(random: &mut Random, n: usize) -> Vec<u8> {
    let largest = [1, 3, 31][random.below(3)];
    samples::channel(random, 1 << n, largest)
}
