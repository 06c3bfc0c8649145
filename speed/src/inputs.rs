//! Frames, and bytes that are none, by chance.
use crate::by_bit::ByBit;
use crate::reading::{header_checksum, start, Way};

/// Random numbers (xorshift64*).
pub struct Chance(u64);

impl Chance {
    pub fn new(seed: u64) -> Chance {
        Chance(seed.max(1))
    }

    pub fn next(&mut self) -> u64 {
        self.0 ^= self.0 >> 12;
        self.0 ^= self.0 << 25;
        self.0 ^= self.0 >> 27;
        self.0.wrapping_mul(0x2545_F491_4F6C_DD1D)
    }

    /// A number below `bound`.
    pub fn below(&mut self, bound: usize) -> usize {
        (self.next() >> 32) as usize % bound
    }
}

/// What is handed to reading.
pub struct Input {
    pub channel: u8,
    pub bytes: Vec<u8>,
}

/// A frame of so many bytes: all of its fields by chance, and both checksums right.
pub fn frame(chance: &mut Chance, size: usize) -> Input {
    let words = (size as u64 - 8) / 2;
    let sync = chance.next() & 1;
    let startup = sync & chance.next();
    let id = 1 + chance.below(2047) as u64;
    framed(chance, size, sync << 19 | startup << 18 | id << 7 | words)
}

/// The 20 bits of a message with both checksums right, whatever the message says.
fn framed(chance: &mut Chance, size: usize, message: u64) -> Input {
    let flags = chance.next() & 7;
    let cycle = chance.next() & 63;
    let checksum = header_checksum(message as u32) as u64;
    let header = flags << 37 | message << 17 | checksum << 6 | cycle;
    let mut bytes = header.to_be_bytes()[3..].to_vec();
    bytes.extend((8..size).map(|_| chance.next() as u8));
    let channel = (chance.next() & 1) as u8;
    let trailer = ByBit::feed(start(channel).unwrap(), &bytes);
    bytes.extend(&trailer.to_be_bytes()[1..]);
    Input { channel, bytes }
}

/// Anything: a frame, a frame with a few bits turned, one that says something wrong under right checksums, random bytes.
pub fn anything(chance: &mut Chance) -> Input {
    let size = 8 + 2 * chance.below(128);
    match chance.below(8) {
        0 | 1 => frame(chance, size),
        2 | 3 => {
            let mut input = frame(chance, size);
            for _ in 0..1 + chance.below(3) {
                let place = chance.below(8 * size);
                input.bytes[place / 8] ^= 0x80 >> (place % 8);
            }
            input
        }
        4 => {
            let message = chance.next() & 0xF_FFFF;
            framed(chance, size, message)
        }
        5 => {
            let startup = chance.next() & 1;
            let id = chance.next() & 1;
            framed(chance, size, startup << 18 | id << 7 | (size as u64 - 8) / 2)
        }
        6 => {
            let mut input = frame(chance, size);
            input.channel = chance.next() as u8;
            input.bytes.truncate(chance.below(size + 1));
            input
        }
        _ => {
            let size = chance.below(300);
            Input { channel: (chance.next() & 1) as u8, bytes: (0..size).map(|_| chance.next() as u8).collect() }
        }
    }
}
