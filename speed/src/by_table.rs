//! The frame checksum with a table of 256 entries, which the compiler works out bit by bit.
use crate::by_bit::after;
use crate::reading::Way;

static TABLE: [u32; 256] = entries();

const fn entries() -> [u32; 256] {
    let mut table = [0; 256];
    let mut byte = 0;
    while byte < 256 {
        table[byte] = after(0, byte as u8);
        byte += 1;
    }
    table
}

pub struct ByTable;

impl Way for ByTable {
    fn feed(register: u32, bytes: &[u8]) -> u32 {
        bytes.iter().fold(register, |register, &byte| {
            (register << 8) & 0xFF_FFFF ^ TABLE[((register >> 16) as u8 ^ byte) as usize]
        })
    }
}
