//! One decoding pass: document 01, "A decoding pass"; document 000, section II-B. Positive values
//! favour bit 0.

use crate::reference::description::is_information;

/// How an index is decided.
#[derive(Clone, Copy, Debug, PartialEq, Eq)]
pub enum Rule {
    /// A frozen bit is 0.
    Frozen,
    /// An information bit is 1 exactly when its value is negative.
    Usual,
    /// The opposite of the usual decision.
    Opposite,
}

/// What a pass gives.
#[derive(Clone, Debug, PartialEq, Eq)]
pub struct Pass {
    /// All N bits, the forced ones first.
    pub bits: Vec<u8>,
    /// The leaf values of the indices after the forced ones.
    pub leaves: Vec<i64>,
    /// The f and g values that were computed.
    pub steps: usize,
}

/// A pass over channel values whose first bits are forced to `prefix`.
pub fn pass(channel: &[i64], prefix: &[u8], rules: &[Rule]) -> Pass {
    let mut run = Run {
        prefix,
        rules,
        bits: prefix.to_vec(),
        leaves: Vec::new(),
        steps: 0,
    };
    if prefix.len() < channel.len() {
        run.node(0, channel);
    }
    Pass {
        bits: run.bits,
        leaves: run.leaves,
        steps: run.steps,
    }
}

/// The rules of a plain pass.
pub fn plain_rules(mask: &[u8]) -> Vec<Rule> {
    (0..8 * mask.len())
        .map(|index| match is_information(mask, index) {
            true => Rule::Usual,
            false => Rule::Frozen,
        })
        .collect()
}

/// The paper's closed sum of the steps that are skipped where q bits are forced: q − (q mod 2^j)
/// for j = 0..n − 1. A pass counts its steps without it.
pub fn skipped_steps(n: usize, q: usize) -> usize {
    (0..n).map(|j| q - q % (1 << j)).sum()
}

/// A pass under way.
struct Run<'a> {
    prefix: &'a [u8],
    rules: &'a [Rule],
    bits: Vec<u8>,
    leaves: Vec<i64>,
    steps: usize,
}

impl Run<'_> {
    /// Decides the indices from `first` on, as many as there are values: the left half first, then
    /// the right half. Gives the sums of their bits.
    fn node(&mut self, first: usize, v: &[i64]) -> Vec<u8> {
        if let [value] = *v {
            return vec![self.leaf(first, value)];
        }
        let h = v.len() / 2;
        let left = self.child(first, h, |j| f(v[j], v[j + h]));
        let right = self.child(first + h, h, |j| g(v[j], v[j + h], left[j]));
        combine(&left, &right)
    }

    /// A node of `size` indices below its parent. Where all of them are forced nothing is computed;
    /// otherwise each of its values is a step.
    fn child(&mut self, first: usize, size: usize, value: impl Fn(usize) -> i64) -> Vec<u8> {
        let end = first + size;
        if end <= self.prefix.len() {
            return sums(&self.prefix[first..end]);
        }
        let mut values = Vec::with_capacity(size);
        for j in 0..size {
            values.push(value(j));
            self.steps += 1;
        }
        self.node(first, &values)
    }

    /// Decides one index.
    fn leaf(&mut self, index: usize, value: i64) -> u8 {
        let usual = u8::from(value < 0);
        let bit = match self.rules[index] {
            Rule::Frozen => 0,
            Rule::Usual => usual,
            Rule::Opposite => 1 - usual,
        };
        self.bits.push(bit);
        self.leaves.push(value);
        bit
    }
}

/// The smaller magnitude with the product of signs; zero has positive sign.
fn f(a: i64, b: i64) -> i64 {
    sign(a) * sign(b) * a.abs().min(b.abs())
}

fn sign(a: i64) -> i64 {
    if a < 0 {
        -1
    } else {
        1
    }
}

/// The right value under a left sum bit.
fn g(a: i64, b: i64, left: u8) -> i64 {
    if left == 0 {
        a + b
    } else {
        b - a
    }
}

/// The sums coming up: left xor right, then right.
fn combine(left: &[u8], right: &[u8]) -> Vec<u8> {
    let lower = left.iter().zip(right).map(|(l, r)| l ^ r);
    lower.chain(right.iter().copied()).collect()
}

/// The sums of bits that are known.
fn sums(bits: &[u8]) -> Vec<u8> {
    if bits.len() == 1 {
        return bits.to_vec();
    }
    let (left, right) = bits.split_at(bits.len() / 2);
    combine(&sums(left), &sums(right))
}

#[cfg(test)]
mod tests {
    use super::*;
    use crate::reference::channel::read_channel;
    use crate::reference::sizes::{LARGEST_N, LAYERS, LONGEST};
    use crate::reference::transform::transform;
    use crate::testing::random::Random;
    use crate::testing::samples;

    /// The rules of a mask of n layers with the information indices given.
    fn rules_of(n: usize, information: &[usize]) -> Vec<Rule> {
        (0..1 << n)
            .map(|index| match information.contains(&index) {
                true => Rule::Usual,
                false => Rule::Frozen,
            })
            .collect()
    }

    fn random_values(random: &mut Random, count: usize) -> Vec<i64> {
        (0..count).map(|_| random.below(63) as i64 - 31).collect()
    }

    fn random_rules(random: &mut Random, count: usize) -> Vec<Rule> {
        let kinds = [Rule::Frozen, Rule::Usual, Rule::Usual, Rule::Opposite];
        (0..count).map(|_| kinds[random.below(4)]).collect()
    }

    #[test]
    fn f_and_g() {
        assert_eq!([f(3, 5), f(-3, 5), f(3, -5), f(-3, -5)], [3, -3, -3, 3]);
        assert_eq!([f(5, 3), f(-5, 3), f(5, -3), f(-5, -3)], [3, -3, -3, 3]);
        assert_eq!([f(0, -5), f(-5, 0), f(0, 0)], [0, 0, 0]);
        assert_eq!([g(3, 5, 0), g(3, 5, 1), g(-3, 5, 1)], [8, 2, 8]);
        assert_eq!([sign(0), sign(1), sign(-1)], [1, 1, -1]);
    }

    #[test]
    fn rules_follow_the_mask() {
        assert_eq!(plain_rules(&[0xE8]), rules_of(3, &[3, 5, 6, 7]));
    }

    #[test]
    fn zero_decides_0() {
        let plain = pass(&[0; 8], &[], &rules_of(3, &[3, 5, 6, 7]));
        assert_eq!(plain.bits, [0; 8]);
        assert_eq!(plain.leaves, [0; 8]);
        assert_eq!(plain.steps, 24);
    }

    /// Rows of the paper: leaf magnitudes of V order 5, 3, 6, 7, and zeros before 6 skip 16 steps.
    #[test]
    fn the_vector_v() {
        let rules = rules_of(3, &[3, 5, 6, 7]);
        let v = [-1, 3, 2, 2, -2, -2, 3, 2];
        let plain = pass(&v, &[], &rules);
        assert_eq!(plain.steps, 24);
        let magnitudes = [5, 3, 6, 7].map(|index| plain.leaves[index].abs());
        assert!(magnitudes.is_sorted(), "{magnitudes:?}");
        let resumed = pass(&v, &[0; 6], &rules);
        assert_eq!((resumed.bits, resumed.steps), (vec![0; 8], 8));
    }

    #[test]
    fn skipped_steps_of_the_paper() {
        let skipped = [0, 1, 6, 7, 8].map(|q| skipped_steps(3, q));
        assert_eq!(skipped, [0, 1, 16, 17, 24]);
    }

    #[test]
    fn the_count_is_the_closed_sum() {
        let mut random = Random::new(1);
        for n in 0..=8 {
            let values = random_values(&mut random, 1 << n);
            let rules = random_rules(&mut random, 1 << n);
            for q in 0..=1 << n {
                let steps = pass(&values, &random.bits(q), &rules).steps;
                assert_eq!(steps, n * (1 << n) - skipped_steps(n, q), "{n} {q}");
            }
            assert_eq!(skipped_steps(n, 1 << n), n << n);
        }
    }

    /// The example of document 001: N = 16, restart at 11. The restart path to index 11, 1 0 1 1 in
    /// binary, is g, f, g, g on sums restored from the bits before it.
    #[test]
    fn the_restart_path_of_document_001() {
        let rules = rules_of(4, &[6, 7, 9, 11, 12, 13, 14, 15]);
        let mut random = Random::new(2);
        for _ in 0..100 {
            let ch = random_values(&mut random, 16);
            let whole = pass(&ch, &[], &rules);
            let resumed = pass(&ch, &whole.bits[..11], &rules);
            assert_eq!(resumed.bits, whole.bits);
            assert_eq!(resumed.leaves, whole.leaves[11..]);
            assert_eq!(resumed.steps, 27);

            let u = &whole.bits;
            let sums_3 = transform(&u[0..8]);
            let sums_1 = transform(&u[8..10]);
            let third: Vec<i64> = (0..8).map(|j| g(ch[j], ch[j + 8], sums_3[j])).collect();
            let second: Vec<i64> = (0..4).map(|j| f(third[j], third[j + 4])).collect();
            let first = [0, 1].map(|j| g(second[j], second[j + 2], sums_1[j]));
            assert_eq!(resumed.leaves[0], g(first[0], first[1], u[10]));
        }
    }

    #[test]
    fn resuming_where_the_pass_was_changes_nothing() {
        let mut random = Random::new(3);
        for n in 0..=7 {
            let values = random_values(&mut random, 1 << n);
            let rules = random_rules(&mut random, 1 << n);
            let whole = pass(&values, &[], &rules);
            for q in 0..=1 << n {
                let resumed = pass(&values, &whole.bits[..q], &rules);
                assert_eq!(resumed.bits, whole.bits);
                assert_eq!(resumed.leaves, whole.leaves[q..]);
            }
        }
    }

    #[test]
    fn forced_bits_stay_and_rules_below_them_do_not_matter() {
        let mut random = Random::new(4);
        for n in 3..=7 {
            let values = random_values(&mut random, 1 << n);
            let rules = random_rules(&mut random, 1 << n);
            for q in 0..=1 << n {
                let prefix = random.bits(q);
                let resumed = pass(&values, &prefix, &rules);
                assert_eq!(resumed.bits[..q], prefix);
                let others = [&random_rules(&mut random, q)[..], &rules[q..]].concat();
                assert_eq!(pass(&values, &prefix, &others), resumed);
            }
        }
    }

    #[test]
    fn an_opposite_decision_is_the_first_difference() {
        let mut random = Random::new(5);
        for n in 3..=7 {
            let values = random_values(&mut random, 1 << n);
            let rules = random_rules(&mut random, 1 << n);
            let whole = pass(&values, &[], &rules);
            for index in 0..1 << n {
                let mut flipped = rules.clone();
                flipped[index] = match rules[index] {
                    Rule::Usual => Rule::Opposite,
                    Rule::Opposite => Rule::Usual,
                    Rule::Frozen => continue,
                };
                let other = pass(&values, &[], &flipped);
                assert_eq!(other.bits[..index], whole.bits[..index]);
                assert_eq!(other.bits[index], 1 - whole.bits[index]);
                assert_eq!(other.leaves[..=index], whole.leaves[..=index]);
            }
        }
    }

    #[test]
    fn sums_are_the_transform() {
        let mut random = Random::new(6);
        for n in 0..=LARGEST_N {
            let bits = random.bits(1 << n);
            assert_eq!(sums(&bits), transform(&bits));
        }
    }

    #[test]
    fn leaf_magnitudes_keep_the_bound() {
        let rules = vec![Rule::Usual; LONGEST];
        let largest = pass(&[31; LONGEST], &[], &rules).leaves;
        assert_eq!(largest.iter().max(), Some(&126_976));
        let mut random = Random::new(7);
        for _ in 0..20 {
            let leaves = pass(&random_values(&mut random, LONGEST), &[], &rules).leaves;
            assert!(leaves.iter().all(|leaf| leaf.abs() <= 31 << LARGEST_N));
        }
    }

    /// Right signs and no zero: the pass finds u, and each leaf value favours its bit.
    #[test]
    fn right_signs_decode_to_the_codeword() {
        let mut random = Random::new(8);
        for n in LAYERS {
            let size = 1 << n;
            for ones in [1, size / 2, size] {
                let mask = samples::mask(&mut random, size, ones);
                let u: Vec<u8> = mask
                    .iter()
                    .map(|&one| u8::from(one) & random.byte())
                    .collect();
                let channel = samples::noiseless(&mut random, &transform(&u));
                let values = read_channel(&channel, size).expect("channel values");
                let rules: Vec<Rule> = mask
                    .iter()
                    .map(|&one| if one { Rule::Usual } else { Rule::Frozen })
                    .collect();
                let plain = pass(&values, &[], &rules);
                assert_eq!(plain.bits, u);
                let favoured = plain.leaves.iter().map(|&leaf| {
                    assert_ne!(leaf, 0);
                    u8::from(leaf < 0)
                });
                assert!(favoured.eq(u));
            }
        }
    }
}
