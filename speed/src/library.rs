//! The library's reading, called as a host program in C calls it (c/hridvanolt.h): a channel, a pointer and a size, and a result by a pointer
//! that comes first.
use crate::reading::Header;

/// `struct hridvanolt_reading`.
#[repr(C)]
#[derive(Clone, Copy, Default)]
struct Told {
    number: u8,
    reserved: bool,
    preamble: bool,
    null_frame_bit: bool,
    sync: bool,
    startup: bool,
    id: u16,
    words: u8,
    checksum: u16,
    cycle: u8,
    found: u32,
    expected: u32,
}

extern "C" {
    fn hridvanolt_read(channel: u8, bytes: *const u8, size: usize) -> Told;
}

/// What the library has answered.
pub struct Reading(Told);

impl Reading {
    pub fn none() -> Reading {
        Reading(Told::default())
    }

    /// Reads a frame, and keeps the answer here.
    #[inline(always)]
    pub fn read(&mut self, channel: u8, bytes: &[u8]) {
        // SAFETY: pointer and size are those of `bytes`, which the library only reads.
        self.0 = unsafe { hridvanolt_read(channel, bytes.as_ptr(), bytes.len()) };
    }

    /// The header, or 01's refusal number.
    pub fn told(&self) -> Result<Header, u8> {
        let told = &self.0;
        if told.number != 0 {
            return Err(told.number);
        }
        Ok(Header {
            reserved: told.reserved,
            preamble: told.preamble,
            null_frame_bit: told.null_frame_bit,
            sync: told.sync,
            startup: told.startup,
            id: told.id,
            words: told.words,
            checksum: told.checksum,
            cycle: told.cycle,
        })
    }
}
