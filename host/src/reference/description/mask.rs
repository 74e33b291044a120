//! Masks: document 01, "Code description".

/// Bit b of byte m, b = 0 being the least bit, stands for index 8m + b; one marks an information
/// index.
pub fn is_information(mask: &[u8], index: usize) -> bool {
    mask[index / 8] >> (index % 8) & 1 == 1
}

/// The information indices, ascending.
pub fn information_indices(mask: &[u8]) -> Vec<usize> {
    (0..8 * mask.len())
        .filter(|&index| is_information(mask, index))
        .collect()
}

/// K, the information indices counted one by one.
pub fn count_information(mask: &[u8]) -> usize {
    (0..8 * mask.len())
        .filter(|&index| is_information(mask, index))
        .count()
}

#[cfg(test)]
mod tests {
    use super::*;

    #[test]
    fn mask_bits_are_least_first() {
        let ones: Vec<usize> = (0..16)
            .filter(|&i| is_information(&[0xE8, 0x01], i))
            .collect();
        assert_eq!(ones, [3, 5, 6, 7, 8]);
        assert_eq!(information_indices(&[0xE8, 0x01]), ones);
    }

    #[test]
    fn ones_are_counted() {
        assert_eq!(count_information(&[0xE8, 0x01]), 5);
        assert_eq!(count_information(&[]), 0);
    }
}
