//! The polar transform: document 01, "Check and encoder". Bits are 0 or 1, one per byte.

use std::iter::successors;

/// x_j is the exclusive-or of every u_i for which each one bit of j is also one in i.
pub fn transform(u: &[u8]) -> Vec<u8> {
    (0..u.len())
        .map(|j| with_bits(j, u.len()).fold(0, |sum, i| sum ^ u[i]))
        .collect()
}

/// The indices below `size` in which each one bit of j is one, ascending: the next one after i has
/// the other bits of i + 1.
fn with_bits(j: usize, size: usize) -> impl Iterator<Item = usize> {
    successors(Some(j), move |i| Some((i + 1) | j)).take_while(move |&i| i < size)
}

#[cfg(test)]
mod tests {
    use super::*;
    use crate::reference::sizes::LARGEST_N;
    use crate::testing::random::Random;

    /// G^(⊗n) of document 000: the n-th Kronecker power of the rows 1 0 and 1 1.
    fn kronecker_power(n: usize) -> Vec<Vec<u8>> {
        if n == 0 {
            return vec![vec![1]];
        }
        let inner = kronecker_power(n - 1);
        let upper = inner
            .iter()
            .map(|row| [&row[..], &vec![0; row.len()]].concat());
        let lower = inner.iter().map(|row| [&row[..], &row[..]].concat());
        upper.chain(lower).collect()
    }

    /// u times a matrix, over two values.
    fn times(u: &[u8], matrix: &[Vec<u8>]) -> Vec<u8> {
        (0..u.len())
            .map(|j| (0..u.len()).fold(0, |sum, i| sum ^ u[i] & matrix[i][j]))
            .collect()
    }

    /// Those that are left where all others are sorted out.
    #[test]
    fn indices_with_the_bits_of_another() {
        for size in [1, 2, 64, 128] {
            for j in 0..size {
                let all = (0..size).filter(|i| i & j == j);
                assert!(with_bits(j, size).eq(all), "{j} of {size}");
            }
        }
    }

    #[test]
    fn the_smallest_is_the_kernel() {
        assert_eq!(transform(&[1, 0]), [1, 0]);
        assert_eq!(transform(&[0, 1]), [1, 1]);
        assert_eq!(transform(&[1, 1]), [0, 1]);
    }

    #[test]
    fn is_the_matrix_of_document_000() {
        let mut random = Random::new(1);
        for n in 0..=LARGEST_N {
            let matrix = kronecker_power(n);
            for _ in 0..3 {
                let u = random.bits(1 << n);
                assert_eq!(transform(&u), times(&u, &matrix));
            }
        }
    }

    #[test]
    fn undoes_itself() {
        let mut random = Random::new(2);
        for n in 0..=LARGEST_N {
            let u = random.bits(1 << n);
            assert_eq!(transform(&transform(&u)), u);
        }
    }
}
