//! Checksums as remainders of a written-out long division over rows of bits.

use crate::bits;

/// A generator polynomial, as the exponents of its terms with the highest first.
pub struct Polynomial(&'static [usize]);

/// 01 "Frame layout", header checksum.
pub const HEADER: Polynomial = Polynomial(&[11, 9, 8, 7, 2, 0]);

/// 01 "Frame layout", frame checksum.
pub const FRAME: Polynomial = Polynomial(&[24, 22, 20, 19, 18, 16, 14, 13, 11, 10, 8, 7, 6, 3, 1, 0]);

/// The factors of both, which can't be taken apart any further (002 4.2.8 and 4.4).
pub const HEADER_FACTORS: [Polynomial; 3] = [Polynomial(&[1, 0]), Polynomial(&[5, 3, 0]), Polynomial(&[5, 4, 3, 1, 0])];

pub const FRAME_FACTORS: [Polynomial; 4] = [
    Polynomial(&[1, 0]),
    Polynomial(&[1, 0]),
    Polynomial(&[11, 9, 8, 7, 5, 3, 2, 1, 0]),
    Polynomial(&[11, 9, 8, 7, 6, 3, 0]),
];

/// Factors multiplied out, the lowest bit of the number standing for the term 1.
pub fn product(factors: &[Polynomial]) -> u32 {
    factors.iter().fold(1, |number, factor| factor.times(number))
}

impl Polynomial {
    /// Terms that come twice cancel out.
    fn times(&self, number: u32) -> u32 {
        self.0.iter().fold(0, |sum, exponent| sum ^ number << exponent)
    }

    fn width(&self) -> usize {
        self.0[0]
    }

    /// The remainder of the message, its first bits changed by the start value, times x to the width.
    pub fn checksum(&self, start: u32, message: &[bool]) -> u32 {
        let mut dividend = message.to_vec();
        // Zeros go on before the start value goes in, so a message shorter than the width has room for it.
        dividend.resize(message.len() + self.width(), false);
        self.mix_in(start, &mut dividend);
        for place in 0..message.len() {
            self.subtract_at(place, &mut dividend);
        }
        bits::number(&dividend[message.len()..])
    }

    /// The division backwards: the start value with which as many zeros as the width have this checksum.
    pub fn before_zeros(&self, checksum: u32) -> u32 {
        // The lowest term of each polynomial is 1: where the last bit is 1, it was taken away in the last step.
        let step_back = |value: u32| if value & 1 == 1 { (value ^ self.times(1)) >> 1 } else { value >> 1 };
        (0..self.width()).fold(checksum, |value, _| step_back(value))
    }

    fn mix_in(&self, start: u32, dividend: &mut [bool]) {
        for (bit, change) in dividend.iter_mut().zip(bits::of_number(start, self.width())) {
            *bit ^= change;
        }
    }

    /// One step of the division: nothing to take away where the leading bit is 0.
    fn subtract_at(&self, place: usize, dividend: &mut [bool]) {
        if !dividend[place] {
            return;
        }
        for exponent in self.0 {
            dividend[place + self.width() - exponent] ^= true;
        }
    }
}

#[cfg(test)]
mod tests {
    use super::*;
    use crate::random::Random;

    const CHECK: &[u8] = b"123456789";

    /// A plain shift register, with the polynomials as published in hexadecimal.
    fn register(width: u32, polynomial: u32, start: u32, message: &[bool]) -> u32 {
        message.iter().fold(start, |value, bit| {
            let leading = (value >> (width - 1) & 1 == 1) != *bit;
            let shifted = value << 1 & ((1 << width) - 1);
            if leading {
                shifted ^ polynomial
            } else {
                shifted
            }
        })
    }

    #[test]
    fn published_check_values() {
        assert_eq!(FRAME.checksum(0xFEDCBA, &bits::of_bytes(CHECK)), 0x7979BD);
        assert_eq!(FRAME.checksum(0xABCDEF, &bits::of_bytes(CHECK)), 0x1F23B8);
        // The published 11-bit check value is over nine bytes with the same start value.
        assert_eq!(HEADER.checksum(0x01A, &bits::of_bytes(CHECK)), 0x5A3);
    }

    #[test]
    fn factors_multiply_out() {
        assert_eq!(product(&[]), 1);
        assert_eq!((product(&HEADER_FACTORS), product(&[HEADER])), (0xB85, 0xB85));
        assert_eq!((product(&FRAME_FACTORS), product(&[FRAME])), (0x15D6DCB, 0x15D6DCB));
    }

    /// No polynomial of at most half the degree divides one of the factors.
    #[test]
    fn factors_have_no_factors() {
        for factor in HEADER_FACTORS.iter().chain(&FRAME_FACTORS) {
            let divisors = (2..1 << (factor.width() / 2 + 1)).filter(|divisor| divides(*divisor, factor.times(1)));
            assert_eq!(divisors.count(), 0);
        }
    }

    fn divides(divisor: u32, mut number: u32) -> bool {
        while number.checked_ilog2() >= divisor.checked_ilog2() {
            number ^= divisor << (number.ilog2() - divisor.ilog2());
        }
        number == 0
    }

    #[test]
    fn nothing_to_divide_leaves_the_start_value() {
        assert_eq!(FRAME.checksum(0xFEDCBA, &[]), 0xFEDCBA);
        assert_eq!(HEADER.checksum(0x01A, &[]), 0x01A);
    }

    #[test]
    fn zeros_lead_there_and_back() {
        let mut random = Random::from_seed(12);
        for _ in 0..400 {
            let value = random.below(1 << 24) as u32;
            assert_eq!(FRAME.checksum(FRAME.before_zeros(value), &[false; 24]), value);
            let value = value & 0x7FF;
            assert_eq!(HEADER.before_zeros(HEADER.checksum(value, &[false; 11])), value);
        }
    }

    #[test]
    fn agrees_with_a_shift_register() {
        let mut random = Random::from_seed(11);
        for length in 0..400 {
            let message: Vec<bool> = (0..length).map(|_| random.coin()).collect();
            let start = random.below(1 << 24) as u32;
            assert_eq!(FRAME.checksum(start, &message), register(24, 0x5D6DCB, start, &message));
            let start = start & 0x7FF;
            assert_eq!(HEADER.checksum(start, &message), register(11, 0x385, start, &message));
        }
    }
}
