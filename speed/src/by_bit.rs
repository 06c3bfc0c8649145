//! The frame checksum bit by bit: a byte is taken in at the top by exclusive or, and eight shifts follow.
use crate::reading::{Way, POLYNOMIAL};

pub struct ByBit;

impl Way for ByBit {
    fn feed(register: u32, bytes: &[u8]) -> u32 {
        bytes.iter().fold(register, |register, &byte| after(register, byte))
    }
}

/// The register after a byte. What has left the 24 bits is cut off at the end: there is room for eight bits.
pub const fn after(register: u32, byte: u8) -> u32 {
    let mut register = register ^ (byte as u32) << 16;
    let mut turn = 0;
    while turn < 8 {
        let top = register & 0x80_0000;
        register <<= 1;
        if top != 0 {
            register ^= POLYNOMIAL;
        }
        turn += 1;
    }
    register & 0xFF_FFFF
}
