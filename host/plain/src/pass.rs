//! One decoding pass by successive cancellation.

use crate::code::{value, Code};
use crate::message::{combine, transform};
use crate::SIZE;

/// The smaller magnitude with the product of signs.
fn f(a: i32, b: i32) -> i32 {
    let least = a.wrapping_abs().min(b.wrapping_abs());
    if a ^ b < 0 {
        least.wrapping_neg()
    } else {
        least
    }
}

/// The right value under a left sum bit. Nothing wraps: magnitudes stay below 2^17.
fn g(a: i32, b: i32, sum: u8) -> i32 {
    if sum == 0 {
        b.wrapping_add(a)
    } else {
        b.wrapping_sub(a)
    }
}

/// A pass under way: bits below q are forced. Below the root, the values of a node of 2^s indices
/// stand in `work` from 2^s on. Bit 0 of a rule marks an information index, bit 1 the opposite
/// decision.
pub struct Pass {
    work: [i32; SIZE],
    pub leaves: [i32; SIZE],
    pub rules: [u8; SIZE],
    pub bits: [u8; SIZE],
    sums: [u8; SIZE],
    q: usize,
    pub steps: usize,
}

impl Pass {
    pub fn new(code: &Code) -> Self {
        let mut pass = Pass {
            work: [0; SIZE],
            leaves: [0; SIZE],
            rules: [0; SIZE],
            bits: [0; SIZE],
            sums: [0; SIZE],
            q: 0,
            steps: 0,
        };
        for (rule, information) in pass.rules.iter_mut().zip(code.mask_bits()) {
            *rule = information;
        }
        pass
    }

    /// Decides all bits from q on.
    pub fn run(&mut self, channel: &[u8], q: usize) {
        self.q = q;
        let h = channel.len() / 2;
        let (a, b) = channel.split_at(h);
        if 2 * h <= q {
            return;
        }
        if h > q {
            for ((to, a), b) in self.work[h..].iter_mut().zip(a).zip(b) {
                *to = f(value(*a), value(*b));
            }
            self.steps += h;
        }
        self.node(0, h);
        let sums = &self.sums[..h];
        for (((to, a), b), sum) in self.work[h..].iter_mut().zip(a).zip(b).zip(sums) {
            *to = g(value(*a), value(*b), *sum);
        }
        self.steps += h;
        self.node(h, h);
    }

    fn node(&mut self, base: usize, size: usize) {
        if base + size <= self.q {
            self.rebuild(base, size);
            return;
        }
        if size == 1 {
            self.leaf(base);
            return;
        }
        let h = size / 2;
        if base + h > self.q {
            self.left_values(h);
        }
        self.node(base, h);
        self.right_values(base, h);
        self.node(base + h, h);
        combine(&mut self.sums[base..base + size]);
    }

    fn left_values(&mut self, h: usize) {
        let (to, v) = self.work[h..4 * h].split_at_mut(h);
        let (a, b) = v.split_at(h);
        for ((to, a), b) in to.iter_mut().zip(a).zip(b) {
            *to = f(*a, *b);
        }
        self.steps += h;
    }

    fn right_values(&mut self, base: usize, h: usize) {
        let (to, v) = self.work[h..4 * h].split_at_mut(h);
        let (a, b) = v.split_at(h);
        let sums = &self.sums[base..base + h];
        for (((to, a), b), sum) in to.iter_mut().zip(a).zip(b).zip(sums) {
            *to = g(*a, *b, *sum);
        }
        self.steps += h;
    }

    fn leaf(&mut self, index: usize) {
        let value = self.work[1];
        let rule = self.rules[index];
        let bit = rule & 1 & (u8::from(value < 0) ^ rule >> 1);
        self.bits[index] = bit;
        self.sums[index] = bit;
        self.leaves[index] = value;
    }

    fn rebuild(&mut self, base: usize, size: usize) {
        let sums = &mut self.sums[base..base + size];
        sums.copy_from_slice(&self.bits[base..base + size]);
        transform(sums);
    }
}
