//! Reading a frame (document 01, "Frame layout") as one would write it in Rust. One thing is left open: how the frame checksum is worked out.

/// The polynomial of the frame checksum, with its top term.
pub const POLYNOMIAL: u32 = 0x15D_6DCB;

/// A way to work out the frame checksum: the register after bytes.
pub trait Way {
    fn feed(register: u32, bytes: &[u8]) -> u32;
}

/// 01's nine fields.
#[derive(Clone, Copy, Debug, Default, PartialEq, Eq)]
pub struct Header {
    pub reserved: bool,
    pub preamble: bool,
    pub null_frame_bit: bool,
    pub sync: bool,
    pub startup: bool,
    pub id: u16,
    pub words: u8,
    pub checksum: u16,
    pub cycle: u8,
}

/// The header, or 01's refusal number. It is a call of its own, as that of the library is.
#[inline(never)]
pub fn read<W: Way>(channel: u8, bytes: &[u8]) -> Result<Header, u8> {
    let start = start(channel).ok_or(1)?;
    if bytes.len() < 8 {
        return Err(2);
    }
    if bytes.len() % 2 == 1 || bytes.len() > 262 {
        return Err(3);
    }
    let sent = number(&bytes[..5]);
    let header = unpacked(sent);
    if header.checksum != header_checksum((sent >> 17) as u32 & 0xF_FFFF) {
        return Err(4);
    }
    if 8 + 2 * header.words as usize != bytes.len() {
        return Err(5);
    }
    if header.id == 0 {
        return Err(6);
    }
    if header.startup && !header.sync {
        return Err(7);
    }
    let (checked, trailer) = bytes.split_at(bytes.len() - 3);
    if number(trailer) != W::feed(start, checked) as u64 {
        return Err(8);
    }
    Ok(header)
}

/// The start value of the frame checksum on a channel.
pub fn start(channel: u8) -> Option<u32> {
    match channel {
        0 => Some(0xFE_DCBA),
        1 => Some(0xAB_CDEF),
        _ => None,
    }
}

/// The header checksum of 20 bits.
pub fn header_checksum(message: u32) -> u16 {
    let mut register = 0x01A;
    for place in (0..20).rev() {
        let lead = register ^ (((message >> place) & 1) << 10);
        register = (lead << 1) & 0x7FF;
        if lead & 0x400 != 0 {
            register ^= 0x385;
        }
    }
    register as u16
}

fn number(bytes: &[u8]) -> u64 {
    bytes.iter().fold(0, |number, &byte| number << 8 | byte as u64)
}

/// The fields in the 40 bits of a header.
fn unpacked(sent: u64) -> Header {
    let bit = |place: u32| sent >> place & 1 == 1;
    Header {
        reserved: bit(39),
        preamble: bit(38),
        null_frame_bit: bit(37),
        sync: bit(36),
        startup: bit(35),
        id: (sent >> 24 & 0x7FF) as u16,
        words: (sent >> 17 & 0x7F) as u8,
        checksum: (sent >> 6 & 0x7FF) as u16,
        cycle: (sent & 0x3F) as u8,
    }
}
