//! The cyclic check: document 01, "Check and encoder", with the start of document 02, request 2.1.
//! Coefficients are 0 or 1, the highest first.

use crate::reference::description::has_term;

/// The remainder of start · z^k + payload · z^r on division by z^r + polynomial, r coefficients; the
/// first of the k payload bits is the highest coefficient.
pub fn check(payload: &[u8], r: usize, polynomial: u16, start: u16) -> Vec<u8> {
    let start = times_power(&coefficients(start, r), payload.len());
    let payload = times_power(payload, r);
    remainder(sum(&start, &payload), &divisor(r, polynomial))
}

/// The coefficients of z^r + polynomial.
fn divisor(r: usize, polynomial: u16) -> Vec<u8> {
    [vec![1], coefficients(polynomial, r)].concat()
}

/// The r coefficients below z^r of a number whose bit i stands for z^i.
fn coefficients(number: u16, r: usize) -> Vec<u8> {
    (0..r).rev().map(|i| has_term(number, i).into()).collect()
}

/// A polynomial times z^power.
fn times_power(polynomial: &[u8], power: usize) -> Vec<u8> {
    [polynomial, &vec![0; power]].concat()
}

/// The sum of two polynomials of as many coefficients.
fn sum(a: &[u8], b: &[u8]) -> Vec<u8> {
    assert_eq!(a.len(), b.len(), "as many coefficients");
    a.iter().zip(b).map(|(x, y)| x ^ y).collect()
}

/// Long division as on paper: wherever a one leads, the divisor is taken away under it.
fn remainder(mut dividend: Vec<u8>, divisor: &[u8]) -> Vec<u8> {
    let degree = divisor.len() - 1;
    let quotient = dividend.len() - degree;
    for lead in 0..quotient {
        if dividend[lead] == 1 {
            for (place, coefficient) in divisor.iter().enumerate() {
                dividend[lead + place] ^= coefficient;
            }
        }
    }
    dividend.split_off(quotient)
}

#[cfg(test)]
mod tests {
    use super::*;
    use crate::reference::packing::unpack;
    use crate::testing::random::Random;
    use crate::testing::samples;

    /// Coefficients as one number.
    fn number(coefficients: &[u8]) -> u32 {
        coefficients.iter().fold(0, |n, &c| 2 * n + u32::from(c))
    }

    /// The check of the string 123456789, as catalogues of cyclic checks give it.
    fn of_digits(r: usize, polynomial: u16, start: u16) -> u32 {
        number(&check(&unpack(b"123456789", 72), r, polynomial, start))
    }

    /// The product of two polynomials.
    fn product(a: &[u8], b: &[u8]) -> Vec<u8> {
        let mut sum = vec![0; a.len() + b.len() - 1];
        for (i, x) in a.iter().enumerate() {
            for (j, y) in b.iter().enumerate() {
                sum[i + j] ^= x & y;
            }
        }
        sum
    }

    /// Gives payloads of fewer and of more bits than a check has, with its width and polynomial, to
    /// a test.
    fn for_payloads(seed: u64, mut test: impl FnMut(&mut Random, &[u8], usize, u16)) {
        let mut random = Random::new(seed);
        for r in 1..=16 {
            for k in 1..40 {
                let payload = random.bits(k);
                let polynomial = samples::polynomial(&mut random, r);
                test(&mut random, &payload, r, polynomial);
            }
        }
    }

    #[test]
    fn rows_of_the_paper() {
        assert_eq!(number(&check(&[1], 11, 0x0621, 0)), 0x621);
    }

    #[test]
    fn the_divisor_of_document_001() {
        // z^11 + z^10 + z^9 + z^5 + 1
        let ones = divisor(11, 0x0621);
        assert_eq!(ones, [1, 1, 1, 0, 0, 0, 1, 0, 0, 0, 0, 1]);
    }

    #[test]
    fn published_values() {
        assert_eq!(of_digits(16, 0x1021, 0), 0x31C3); // CRC-16/XMODEM
        assert_eq!(of_digits(8, 0x07, 0), 0xF4); // CRC-8
        assert_eq!(of_digits(16, 0x8005, 0), 0xFEE8); // CRC-16/UMTS, the polynomial of document 000
    }

    #[test]
    fn published_values_with_a_start() {
        assert_eq!(of_digits(16, 0x1021, 0xFFFF), 0x29B1); // CRC-16/IBM-3740
        assert_eq!(of_digits(16, 0x1021, 0x1D0F), 0xE5CC); // CRC-16/SPI-FUJITSU
        assert_eq!(of_digits(16, 0x8005, 0xFFFF), 0xAEE7); // CRC-16/CMS
        assert_eq!(of_digits(11, 0x385, 0x01A), 0x5A3); // CRC-11/FLEXRAY
        assert_eq!(of_digits(8, 0x31, 0xFF), 0xF7); // CRC-8/NRSC-5
    }

    #[test]
    fn a_width_of_one_is_the_parity() {
        for payload in [[0, 0, 0], [0, 0, 1], [1, 0, 1], [1, 1, 1]] {
            let parity = payload.iter().sum::<u8>() % 2;
            assert_eq!(check(&payload, 1, 1, 0), [parity]);
            assert_eq!(check(&payload, 1, 1, 1), [1 - parity]);
        }
    }

    #[test]
    fn start_0_leaves_the_remainder_of_the_payload() {
        for_payloads(2, |_, payload, r, polynomial| {
            let dividend = times_power(payload, r);
            let plain = remainder(dividend, &divisor(r, polynomial));
            assert_eq!(check(payload, r, polynomial, 0), plain);
        });
    }

    /// Where there are as many payload bits as the start has, it may be added to the first of them.
    #[test]
    fn a_start_is_added_to_the_first_bits() {
        for_payloads(3, |random, payload, r, polynomial| {
            let start = samples::start(random, r);
            if r <= payload.len() {
                let first = times_power(&coefficients(start, r), payload.len() - r);
                let changed = sum(payload, &first);
                let expected = check(&changed, r, polynomial, 0);
                assert_eq!(check(payload, r, polynomial, start), expected);
            }
        });
    }

    #[test]
    fn payload_and_check_are_a_multiple_of_the_divisor() {
        for_payloads(1, |_, payload, r, polynomial| {
            let k = payload.len();
            let divisor = divisor(r, polynomial);
            let whole = [payload, &check(payload, r, polynomial, 0)].concat();
            assert_eq!(remainder(whole, &divisor), vec![0; r]);
            let multiple = product(payload, &divisor);
            assert_eq!(check(&multiple[..k], r, polynomial, 0), multiple[k..]);
        });
    }

    /// With the start added too; of all checks of a small width it is the only one.
    #[test]
    fn payload_check_and_start_are_a_multiple_of_the_divisor() {
        for_payloads(4, |random, payload, r, polynomial| {
            let start = samples::start(random, r);
            let right = number(&check(payload, r, polynomial, start));
            let shifted = times_power(&coefficients(start, r), payload.len());
            let checks = if r <= 6 { 0..1 << r } else { right..right + 1 };
            for check in checks {
                let whole = [payload, &coefficients(check as u16, r)].concat();
                let rest = remainder(sum(&whole, &shifted), &divisor(r, polynomial));
                assert_eq!(rest == vec![0; r], check == right);
            }
        });
    }

    /// z is invertible modulo a divisor whose last coefficient is one, so start · z^k leaves no
    /// remainder of zero: every polynomial and start of a small width, every start of the others.
    #[test]
    fn zeros_never_check_to_zeros_under_a_start() {
        let mut random = Random::new(5);
        for r in 1..=16 {
            for polynomial in polynomials(&mut random, r) {
                zeros_under_every_start(r, polynomial);
            }
        }
    }

    /// Every polynomial of a small width, two of another.
    fn polynomials(random: &mut Random, r: usize) -> Vec<u16> {
        match r {
            1..=6 => (1..1 << r).step_by(2).collect(),
            _ => [0; 2].map(|_| samples::polynomial(random, r)).to_vec(),
        }
    }

    /// Every start but 0, with few zeros and with more.
    fn zeros_under_every_start(r: usize, polynomial: u16) {
        for start in 1..=0xFFFF >> (16 - r) {
            for k in [1, r, 20] {
                let check = check(&vec![0; k], r, polynomial, start);
                assert_ne!(check, vec![0; r], "{r} {polynomial:x} {start:x} {k}");
            }
        }
    }
}
