//! Placing bits by the mask: document 01, "Check and encoder".

use crate::reference::description::information_indices;

/// u: the bits fill the information indices in ascending order; frozen entries are zero.
pub fn place(mask: &[u8], bits: &[u8]) -> Vec<u8> {
    let indices = information_indices(mask);
    assert_eq!(indices.len(), bits.len(), "one bit for each index");
    let mut u = vec![0; 8 * mask.len()];
    for (index, bit) in indices.into_iter().zip(bits) {
        u[index] = *bit;
    }
    u
}

/// The bits of u at the information indices, in ascending order.
pub fn take(mask: &[u8], u: &[u8]) -> Vec<u8> {
    information_indices(mask)
        .into_iter()
        .map(|index| u[index])
        .collect()
}

#[cfg(test)]
mod tests {
    use super::*;
    use crate::reference::description::count_information;
    use crate::reference::sizes::LONGEST_BYTES;
    use crate::testing::random::Random;

    #[test]
    fn information_indices_ascend() {
        assert_eq!(place(&[0xE8], &[1, 0, 1, 0]), [0, 0, 0, 1, 0, 0, 1, 0]);
        assert_eq!(place(&[0xE8], &[0, 1, 0, 1]), [0, 0, 0, 0, 0, 1, 0, 1]);
        assert_eq!(take(&[0xE8], &[1, 1, 1, 0, 1, 0, 1, 1]), [0, 0, 1, 1]);
    }

    #[test]
    fn take_undoes_place() {
        let mut random = Random::new(1);
        for length in 1..=LONGEST_BYTES {
            let mask = random.bytes(length);
            let bits = random.bits(count_information(&mask));
            assert_eq!(take(&mask, &place(&mask, &bits)), bits);
        }
    }
}
