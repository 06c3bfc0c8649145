//! The commands of a script.

mod layout;

use crate::clock::Times;
use crate::clock_numbers::ClockNumbers;
use crate::closing::Controls;
use crate::frame::{self, Fields, Indicators, ToWrite};
use crate::reader_numbers::ReaderNumbers;
use crate::samples;
use crate::settings::Settings;
use crate::status_numbers::StatusNumbers;
use crate::wire;

pub use layout::Rest;

/// The highest size or room that a script may name.
pub const LIMIT: usize = 600;

/// The bytes of memory that are held for the reader of the wire, which is the highest room of `Y`.
pub const MEMORY: usize = 270;

/// The most runs of `Y`, and the most samples that they may make.
pub const MOST_RUNS: usize = 3_000;
pub const MOST_SAMPLES: usize = 24_000;

/// The letters that a player knows; every other one is an unknown letter to it.
#[derive(Clone, Copy, Debug, PartialEq, Eq)]
pub enum Letters {
    All,
    /// 02 C-18: those of the C program, which reads frames and works out checksums.
    Frames,
}

impl Letters {
    pub fn know(self, letter: char) -> bool {
        self == Letters::All || matches!(letter, 'F' | 'R' | 'P')
    }
}

/// What ends a run before the script's end, in the words and the order of REPLAY.md.
#[derive(Clone, Copy, Debug, PartialEq, Eq, PartialOrd, Ord)]
pub enum Cause {
    UnknownLetter,
    SizeAbove,
    RoomAbove,
    MemoryAbove,
    RunsAbove,
    SamplesAbove,
    WrongSwitch,
    ReasonAbove,
    PhaseAbove,
    EndInside,
}

/// Where and why a script is broken.
#[derive(Clone, Copy, Debug, PartialEq, Eq)]
pub struct Broken {
    pub cause: Cause,
    /// That of the command at fault, which may be none that a command has.
    pub letter: char,
    /// The place of the last byte that was taken, the letter at place 0.
    pub place: usize,
}

/// Bytes handed in on a channel given by its number.
#[derive(Clone, Debug, Default, PartialEq, Eq)]
pub struct OnChannel {
    pub channel: u8,
    pub bytes: Vec<u8>,
}

#[derive(Clone, Debug, Default, PartialEq, Eq)]
pub struct Write {
    pub channel: u8,
    pub flags: u8,
    pub id: u16,
    pub cycle: u8,
    pub payload: Vec<u8>,
    pub room: usize,
}

impl Write {
    /// All that a read of these bytes gives, in a room for just that.
    pub fn again(read: &OnChannel) -> Option<Write> {
        let answer = frame::read(read.channel, &read.bytes);
        let payload = frame::payload(&answer, &read.bytes).to_vec();
        let Fields { indicators, id, cycle, .. } = answer.ok()?;
        Some(Write { channel: read.channel, flags: indicators.flags(), id, cycle, payload, room: read.bytes.len() })
    }

    pub fn given(&self) -> ToWrite {
        ToWrite { indicators: Indicators::from_flags(self.flags), id: self.id, cycle: self.cycle }
    }
}

/// A frame on a channel given by its number, to be encoded with a start length that may be any.
#[derive(Clone, Debug, Default, PartialEq, Eq)]
pub struct Encode {
    pub channel: u8,
    pub start: u8,
    pub frame: Vec<u8>,
    pub room: usize,
}

impl Encode {
    /// In a room for just its packed bits.
    pub fn exact(given: OnChannel, start: u8) -> Encode {
        let room = wire::packed_size(start, given.bytes.len());
        Encode { channel: given.channel, start, frame: given.bytes, room }
    }
}

/// What a slot is opened with; unlike that of a status, the channel may be any number.
#[derive(Clone, Copy, Debug, Default, PartialEq, Eq)]
pub struct Opening {
    pub settings: Settings,
    pub channel: u8,
    pub slot: u16,
    pub cycle: u8,
}

/// A sample, and how many there are of it.
#[derive(Clone, Copy, Debug, Default, PartialEq, Eq)]
pub struct Run {
    pub sample: u8,
    pub times: u8,
}

/// A piece of samples, and how much of the memory is lent.
#[derive(Clone, Debug, Default, PartialEq, Eq)]
pub struct Listen {
    pub room: usize,
    pub runs: Vec<Run>,
}

impl Listen {
    /// One run behind the other.
    pub fn samples(&self) -> Vec<u8> {
        self.runs.iter().flat_map(|run| vec![run.sample; run.times.into()]).collect()
    }
}

#[derive(Clone, Debug, PartialEq, Eq)]
pub enum Command {
    Checksum(OnChannel),
    Read(OnChannel),
    Write(Write),
    /// The whole input of the bench program.
    Bench(Vec<u8>),
    Encode(Encode),
    OpenSlot(Opening),
    Arrived(Vec<u8>),
    Boundary,
    OwnSending,
    PutStatus(StatusNumbers),
    Load(Settings),
    OpenCycle(u8),
    Measure(Times),
    CloseCycle(Controls),
    PutClock(Box<ClockNumbers>),
    Show,
    /// On the channel of this number, which may be any.
    OpenReader(u8),
    Listen(Listen),
    PutReader(ReaderNumbers),
    ShowReader,
}

impl Command {
    pub fn checksum(channel: u8, bytes: &[u8]) -> Command {
        Command::Checksum(OnChannel { channel, bytes: bytes.to_vec() })
    }

    pub fn read(channel: u8, bytes: &[u8]) -> Command {
        Command::Read(OnChannel { channel, bytes: bytes.to_vec() })
    }

    /// The bench program's input: the channel's byte and the frame bytes.
    pub fn bench(channel: u8, bytes: &[u8]) -> Command {
        Command::Bench([&[channel], bytes].concat())
    }

    pub fn put_clock(numbers: &ClockNumbers) -> Command {
        Command::PutClock(Box::new(*numbers))
    }

    /// A piece of samples in as few runs as can be, with all of the memory lent.
    pub fn listen(samples: &[u8]) -> Command {
        Command::Listen(Listen { room: MEMORY, runs: samples::runs(samples) })
    }

    /// The command of a letter, with nothing in it.
    fn blank(letter: char) -> Option<Command> {
        let command = match letter {
            'F' => Command::Checksum(OnChannel::default()),
            'R' => Command::Read(OnChannel::default()),
            'W' => Command::Write(Write::default()),
            'P' => Command::Bench(Vec::new()),
            'E' => Command::Encode(Encode::default()),
            'S' => Command::OpenSlot(Opening::default()),
            'A' => Command::Arrived(Vec::new()),
            'B' => Command::Boundary,
            'X' => Command::OwnSending,
            'T' => Command::PutStatus(StatusNumbers::default()),
            'L' => Command::Load(Settings::default()),
            'O' => Command::OpenCycle(0),
            'M' => Command::Measure(Times::default()),
            'C' => Command::CloseCycle(Controls::NONE),
            'K' => Command::PutClock(Box::default()),
            'D' => Command::Show,
            'H' => Command::OpenReader(0),
            'Y' => Command::Listen(Listen::default()),
            'V' => Command::PutReader(ReaderNumbers::default()),
            'Z' => Command::ShowReader,
            _ => return None,
        };
        Some(command)
    }

    pub fn letter(&self) -> char {
        match self {
            Command::Checksum(_) => 'F',
            Command::Read(_) => 'R',
            Command::Write(_) => 'W',
            Command::Bench(_) => 'P',
            Command::Encode(_) => 'E',
            Command::OpenSlot(_) => 'S',
            Command::Arrived(_) => 'A',
            Command::Boundary => 'B',
            Command::OwnSending => 'X',
            Command::PutStatus(_) => 'T',
            Command::Load(_) => 'L',
            Command::OpenCycle(_) => 'O',
            Command::Measure(_) => 'M',
            Command::CloseCycle(_) => 'C',
            Command::PutClock(_) => 'K',
            Command::Show => 'D',
            Command::OpenReader(_) => 'H',
            Command::Listen(_) => 'Y',
            Command::PutReader(_) => 'V',
            Command::ShowReader => 'Z',
        }
    }
}

#[cfg(test)]
mod tests {
    use super::*;
    use crate::channel::Channel;
    use crate::checksum_pair::ChecksumPair;
    use crate::clock_numbers::{ListNumbers, RowNumbers};
    use crate::sheet_mark::SheetMark;
    use crate::status_numbers::HeaderNumbers;
    use crate::sync_list::PLACES;

    #[test]
    fn write_command_by_hand() {
        let script = b"W\x01\x1C\x02\x03\x04\x02\x00\xEE\xFF\x58\x02";
        let write = Write { channel: 1, flags: 0x1C, id: 0x302, cycle: 4, payload: vec![0xEE, 0xFF], room: LIMIT };
        assert_eq!(Rest::of(script, Letters::All).take_command(), Ok(Command::Write(write.clone())));
        let mut built = Vec::new();
        Command::Write(write).append_to(&mut built);
        assert_eq!(built, script);
    }

    #[test]
    fn encode_command_by_hand() {
        let encode = Encode { channel: 1, start: 0x1F, frame: vec![0xEE, 0xFF, 0x77], room: LIMIT };
        assert_both_ways(b"E\x01\x1F\x03\x00\xEE\xFF\x77\x58\x02", &Command::Encode(encode));
    }

    #[test]
    fn bytes_on_a_channel_by_hand() {
        let mut built = Vec::new();
        Command::checksum(0, &[7, 8, 9]).append_to(&mut built);
        Command::read(255, &[]).append_to(&mut built);
        Command::bench(1, &[7, 8]).append_to(&mut built);
        assert_eq!(built, b"F\x00\x03\x00\x07\x08\x09R\xFF\x00\x00P\x03\x00\x01\x07\x08");
        let mut rest = Rest::of(&built, Letters::Frames);
        assert_eq!(rest.take_command(), Ok(Command::checksum(0, &[7, 8, 9])));
        assert_eq!(rest.take_command(), Ok(Command::read(255, &[])));
        assert_eq!(rest.take_command(), Ok(Command::Bench(vec![1, 7, 8])));
        assert!(rest.is_empty());
    }

    #[test]
    fn reader_commands_by_hand() {
        let runs = vec![Run { sample: 0xFF, times: 3 }, Run { sample: 0, times: 0 }, Run { sample: 2, times: 1 }];
        let listen = Listen { room: 0x10E, runs };
        assert_eq!(listen.samples(), [0xFF, 0xFF, 0xFF, 2]);
        let numbers = ReaderNumbers {
            channel: Channel::B,
            samples: 0xF5,
            seen: 4,
            voted: false,
            counter: 8,
            realigns: true,
            timer: 88,
            phase: 7,
            number: 0x11,
            value: 0x12,
            count: 0x1413,
            since: 0x18171615,
        };
        assert_both_ways(b"H\x09", &Command::OpenReader(9));
        assert_both_ways(b"Y\x0E\x01\x03\x00\xFF\x03\x00\x00\x02\x01", &Command::Listen(listen));
        let put = b"V\x01\xF5\x04\x00\x08\x01\x58\x07\x11\x12\x13\x14\x15\x16\x17\x18";
        assert_both_ways(put, &Command::PutReader(numbers));
        assert_both_ways(b"Z", &Command::ShowReader);
    }

    /// Fields 1 to 11 as 0x04030201, 0x08070605 and so on, and the switch; the mark is that of below.
    fn settings_by_hand() -> (Vec<u8>, Settings) {
        let script: Vec<u8> = (1..=44).chain([1]).collect();
        let fields = [
            0x04030201, 0x08070605, 0x0C0B0A09, 0x100F0E0D, 0x14131211, 0x18171615, 0x1C1B1A19, 0x201F1E1D, 0x24232221,
            0x28272625, 0x2C2B2A29,
        ];
        (script, Settings { fields, sends_sync: true, mark: SheetMark(0xF4F3F2F1) })
    }

    const MARK: &[u8] = b"\xF1\xF2\xF3\xF4";

    #[test]
    fn slot_commands_by_hand() {
        let (sheet, settings) = settings_by_hand();
        let header = HeaderNumbers { flags: 0xFF, id: 0x5453, words: 0x55, checksum: 0x5756, cycle: 0x58 };
        let numbers = StatusNumbers {
            settings,
            channel: Channel::B,
            slot: 0x5150,
            cycle: 0x52,
            marks: 0xEE,
            reason: 6,
            kept: false,
            header,
            checksums: ChecksumPair { found: 0xE4E3E2E1, expected: 0xD4D3D2D1 },
        };
        let commands = [
            (b"S".to_vec(), Command::OpenSlot(Opening { settings, channel: 9, slot: 0x3231, cycle: 0x33 })),
            (b"A\x02\x00\x11\x22".to_vec(), Command::Arrived(vec![0x11, 0x22])),
            (b"B".to_vec(), Command::Boundary),
            (b"X".to_vec(), Command::OwnSending),
            (b"T".to_vec(), Command::PutStatus(numbers)),
            (b"D".to_vec(), Command::Show),
        ];
        for (mut script, command) in commands {
            match script[0] {
                b'S' => script.extend([&sheet[..], b"\x09\x31\x32\x33", MARK].concat()),
                b'T' => {
                    let status = b"\x01\x50\x51\x52\xEE\x06\x00\xFF\x53\x54\x55\x56\x57\x58";
                    script.extend([&sheet[..], status, MARK, b"\xE1\xE2\xE3\xE4\xD1\xD2\xD3\xD4"].concat())
                }
                _ => (),
            }
            assert_both_ways(&script, &command);
        }
    }

    #[test]
    fn clock_commands_by_hand() {
        let (sheet, settings) = settings_by_hand();
        let times = Times { observed: 0x04030201, action_point: 0xFFFE0006 };
        let commands = [
            ([b"L", &sheet[..], MARK].concat(), Command::Load(settings)),
            (b"O\xFF".to_vec(), Command::OpenCycle(255)),
            (b"M\x01\x02\x03\x04\x06\x00\xFE\xFF".to_vec(), Command::Measure(times)),
            (b"C\x80\x01".to_vec(), Command::CloseCycle(Controls { offset: -128, rate: 1 })),
            (clock_by_hand(&sheet), Command::put_clock(&clock_numbers(settings))),
        ];
        for (script, command) in commands {
            assert_both_ways(&script, &command);
        }
        assert_eq!(clock_by_hand(&sheet).len(), 630);
    }

    /// Rows of the even list count from 1, those of the odd one from 0x11; all bytes of the last row are named. Behind the
    /// mark the pairs count in the same way.
    fn clock_by_hand(sheet: &[u8]) -> Vec<u8> {
        let mut script = [b"K", sheet, b"\x00\x41\x01\x42\xFE\xFF\xFF\xFF"].concat();
        for (count, first) in [(0xFF, 1), (3, 0x11)] {
            script.push(count);
            for place in 0..PLACES as u8 - 1 {
                script.extend([&[first + place, 0, 1, place], &[0; 7][..]].concat());
            }
            script.extend(b"\x21\x43\xFC\x04\x03\x02\x01\xFF\xFF\xFF\x7F");
        }
        script.extend(MARK);
        for first in [1, 0x11] {
            (first..first + PLACES as u8).for_each(|place| script.extend([place, 2, 3, 4, 0, 0, place, 0xFF]));
        }
        script
    }

    fn clock_numbers(settings: Settings) -> ClockNumbers {
        let list = |count, first| {
            let pair =
                |place: u16| [0x04030200 + u32::from(place), 0xFF000000 + 0x10000 * u32::from(place)].map(SheetMark);
            let last = first + PLACES as u16 - 1;
            let last = RowNumbers { id: 0x4321, seen: 0xFC, deviations: [0x01020304, 0x7FFFFFFF], pair: pair(last) };
            let mut rows = [last; PLACES];
            for (place, row) in (0..).zip(&mut rows[..PLACES - 1]) {
                let id = first + place;
                *row = RowNumbers { id, seen: 1, deviations: [place.into(), 0], pair: pair(id) };
            }
            ListNumbers { count, rows }
        };
        let lists = [list(0xFF, 1), list(3, 0x11)];
        ClockNumbers { settings, open: false, cycle: 0x41, closed: true, last: 0x42, rate: -2, lists }
    }

    fn assert_both_ways(script: &[u8], command: &Command) {
        let mut rest = Rest::of(script, Letters::All);
        assert_eq!(rest.take_command().as_ref(), Ok(command));
        assert!(rest.is_empty());
        let broken = Rest::of(script, Letters::Frames).take_command().err().map(|broken| broken.cause);
        let unknown = !"FRP".contains(command.letter());
        assert_eq!(broken, unknown.then_some(Cause::UnknownLetter));
        let mut built = Vec::new();
        command.append_to(&mut built);
        assert_eq!(built, script);
    }
}
