//! Rows of bits, most significant first (01 "Frame layout": bits are sent most significant first).

/// The lowest `width` bits of a number.
pub fn of_number(value: u32, width: usize) -> Vec<bool> {
    (0..width).rev().map(|place| value >> place & 1 == 1).collect()
}

/// The bits of a byte string, in the order they are sent.
pub fn of_bytes(bytes: &[u8]) -> Vec<bool> {
    bytes.iter().flat_map(|byte| of_number(u32::from(*byte), 8)).collect()
}

/// The number that a row of at most 32 bits stands for.
pub fn number(bits: &[bool]) -> u32 {
    bits.iter().fold(0, |value, bit| value * 2 + u32::from(*bit))
}

/// The bytes that a row of bits fills; its length is a multiple of 8.
pub fn to_bytes(bits: &[bool]) -> Vec<u8> {
    bits.chunks(8).map(|eight| number(eight) as u8).collect()
}

/// Turns one bit of a byte string over; places count in the order of sending.
pub fn flip(bytes: &mut [u8], place: usize) {
    bytes[place / 8] ^= 0x80 >> (place % 8);
}

#[cfg(test)]
mod tests {
    use super::*;

    #[test]
    fn most_significant_bit_comes_first() {
        assert_eq!(of_number(6, 4), [false, true, true, false]);
        assert_eq!(number(&[true, false, false]), 4);
        assert_eq!(of_bytes(&[0x80, 0x01]).iter().position(|bit| *bit), Some(0));
        assert_eq!(to_bytes(&of_bytes(&[0x12, 0xEF])), [0x12, 0xEF]);
    }

    #[test]
    fn flip_counts_in_sending_order() {
        let mut bytes = [0, 0];
        flip(&mut bytes, 0);
        flip(&mut bytes, 15);
        assert_eq!(bytes, [0x80, 0x01]);
    }
}
