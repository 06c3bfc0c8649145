//! The two channels and their start values.

use crate::refusal::Refusal;

/// A is the default, being number 0: it stands in a state of all zeros.
#[derive(Clone, Copy, Debug, Default, PartialEq, Eq, PartialOrd, Ord)]
pub enum Channel {
    #[default]
    A,
    B,
}

impl Channel {
    pub const BOTH: [Channel; 2] = [Channel::A, Channel::B];

    pub fn from_number(number: u8) -> Result<Channel, Refusal> {
        match number {
            0 => Ok(Channel::A),
            1 => Ok(Channel::B),
            _ => Err(Refusal::Channel),
        }
    }

    pub fn number(self) -> u8 {
        match self {
            Channel::A => 0,
            Channel::B => 1,
        }
    }

    pub fn other(self) -> Channel {
        match self {
            Channel::A => Channel::B,
            Channel::B => Channel::A,
        }
    }

    /// 01 "Frame layout": each channel has a start value of its own for the frame checksum.
    pub fn start_value(self) -> u32 {
        match self {
            Channel::A => 0xFEDCBA,
            Channel::B => 0xABCDEF,
        }
    }
}
