//! What each command is answered, and the line written for it.

use crate::bench;
use crate::checksum_pair::ChecksumPair;
use crate::clock::{self, ClockState, Times};
use crate::clock_numbers::ClockNumbers;
use crate::closing::{Closing, Controls};
use crate::frame::{self, Fields};
use crate::listening::{self, Call};
use crate::reader::{self, Reader};
use crate::reader_numbers::ReaderNumbers;
use crate::refusal::Refusal;
use crate::refused::Refused;
use crate::script::{Command, Encode, Listen, OnChannel, Opening, Write, MEMORY};
use crate::settings::Settings;
use crate::slot::{self, Event, SlotStatus};
use crate::status_numbers::StatusNumbers;
use crate::wire;

/// What every byte of a lent output holds before the call.
pub const UNTOUCHED: u8 = 0xA5;

/// The three states that are held from command to command, all zeros at the start, and the reader's memory.
#[derive(Clone, Debug)]
pub struct Held {
    pub clock: ClockState,
    pub status: SlotStatus,
    pub reader: Reader,
    pub memory: Vec<u8>,
}

impl Default for Held {
    fn default() -> Held {
        Held {
            clock: ClockState::default(),
            status: SlotStatus::default(),
            reader: Reader::default(),
            memory: lent(MEMORY),
        }
    }
}

#[derive(Debug)]
pub enum Answer {
    Checksum(Result<u32, Refusal>),
    Read(Result<Fields, Refused>, Vec<u8>),
    Write(Result<usize, Refusal>, Vec<u8>),
    Bench(Result<Fields, Refused>),
    Encode(Result<usize, Refused>, Vec<u8>),
    /// With the number of the first field out of range, or 0.
    Opened(Result<(), Refusal>, usize),
    Event(Result<(), Refusal>),
    StatusPut,
    /// With the number of the first field out of range, or 0.
    Loaded(Result<(), Refusal>, usize),
    CycleOpened(Result<(), Refusal>),
    Measured(Result<i32, Refusal>),
    Closed(Result<Box<Closing>, Refusal>),
    ClockPut,
    Shown(Box<ClockNumbers>, StatusNumbers),
    ReaderOpened(Result<(), Refusal>),
    Heard(Vec<Call>),
    ReaderPut,
    /// With the whole memory.
    ReaderShown(ReaderNumbers, Vec<u8>),
}

impl Answer {
    /// The answer, with the state that comes back held from then on.
    pub fn to(command: &Command, held: &mut Held) -> Answer {
        match command {
            Command::Checksum(given) => Answer::Checksum(frame::frame_checksum(given.channel, &given.bytes)),
            Command::Read(given) => answer_to_read(given),
            Command::Write(write) => answer_to_write(write),
            Command::Bench(input) => Answer::Bench(bench::read(input)),
            Command::Encode(encode) => answer_to_encode(encode),
            Command::OpenSlot(opening) => answer_to_opening(opening, &mut held.status),
            Command::Arrived(bytes) => answer_to_event(&Event::Arrived(bytes), &mut held.status),
            Command::Boundary => answer_to_event(&Event::Boundary, &mut held.status),
            Command::OwnSending => answer_to_event(&Event::OwnSending, &mut held.status),
            Command::PutStatus(numbers) => answer_to_put(numbers, &mut held.status),
            Command::Load(settings) => answer_to_load(*settings, &mut held.clock),
            Command::OpenCycle(cycle) => answer_to_open_cycle(*cycle, &mut held.clock),
            Command::Measure(times) => answer_to_measure(*times, held),
            Command::CloseCycle(controls) => answer_to_close(*controls, &mut held.clock),
            Command::PutClock(numbers) => answer_to_put_clock(numbers, &mut held.clock),
            Command::Show => Answer::Shown(Box::new(ClockNumbers::of(&held.clock)), StatusNumbers::of(&held.status)),
            Command::OpenReader(channel) => answer_to_open_reader(*channel, &mut held.reader),
            Command::Listen(listen) => answer_to_listen(listen, held),
            Command::PutReader(numbers) => answer_to_put_reader(numbers, &mut held.reader),
            Command::ShowReader => Answer::ReaderShown(ReaderNumbers::of(&held.reader), held.memory.clone()),
        }
    }

    pub fn refusal(&self) -> Option<Refusal> {
        match self {
            Answer::Checksum(answer) => answer.err(),
            Answer::Read(..) | Answer::Bench(_) | Answer::Encode(..) => self.refused().map(|refused| refused.refusal),
            Answer::Write(answer, _) => answer.err(),
            Answer::Opened(answer, _) | Answer::Event(answer) => answer.err(),
            Answer::Loaded(answer, _) | Answer::CycleOpened(answer) => answer.err(),
            Answer::Measured(answer) => answer.err(),
            Answer::Closed(answer) => answer.as_ref().err().copied(),
            Answer::ReaderOpened(answer) => answer.err(),
            // What refuses one call refuses the first, as no call makes a sound reader unsound.
            Answer::Heard(calls) => calls[0].answer.err(),
            Answer::StatusPut | Answer::ClockPut | Answer::Shown(..) => None,
            Answer::ReaderPut | Answer::ReaderShown(..) => None,
        }
    }

    /// A refusal of bytes that were read.
    fn refused(&self) -> Option<Refused> {
        match self {
            Answer::Read(answer, _) | Answer::Bench(answer) => answer.err(),
            Answer::Encode(answer, _) => answer.err(),
            _ => None,
        }
    }

    /// 02 C-18: those beside a refusal of bytes that were read. A reader of the wire tells its own, call by call.
    pub fn checksums(&self) -> ChecksumPair {
        self.refused().map_or(ChecksumPair::NONE, |refused| refused.checksums)
    }

    /// 0 for an answer, the refusal's number otherwise.
    pub fn number(&self) -> u8 {
        self.refusal().map_or(0, Refusal::number)
    }

    pub fn line(&self) -> String {
        let (number, checksums) = (self.number(), self.checksums());
        match self {
            // 01 "Refusal numbers": any other number that comes back is 0.
            Answer::Checksum(answer) => format!("checksum {number} {}", answer.unwrap_or(0)),
            Answer::Read(Ok(fields), payload) => {
                format!("read 0 {} {} {checksums}", field_numbers(fields), hex(payload))
            }
            Answer::Read(Err(_), payload) => format!("read {number} {} {checksums}", hex(payload)),
            Answer::Write(answer, output) => format!("write {number} {} {}", answer.unwrap_or(0), hex(output)),
            Answer::Bench(answer) => bench::line(answer),
            Answer::Encode(answer, output) => {
                format!("encode {number} {} {} {checksums}", answer.unwrap_or(0), hex(output))
            }
            Answer::Opened(_, field) => format!("slot {number} {field}"),
            Answer::Event(_) => format!("event {number}"),
            Answer::StatusPut => "status put".to_string(),
            Answer::Loaded(_, field) => format!("load {number} {field}"),
            Answer::CycleOpened(_) => format!("open {number}"),
            Answer::Measured(answer) => format!("measure {number} {}", answer.unwrap_or(0)),
            Answer::Closed(Ok(closing)) => format!("close 0 {}", closing.numbers()),
            Answer::Closed(Err(_)) => format!("close {number} 0 0 0 0 0 0 0 0"),
            Answer::ClockPut => "clock put".to_string(),
            Answer::Shown(clock, status) => format!("{}\n{}", clock.line(), status.line()),
            Answer::ReaderOpened(_) => format!("reader {number}"),
            Answer::Heard(calls) => calls.iter().map(Call::line).collect::<Vec<String>>().join("\n"),
            Answer::ReaderPut => "reader put".to_string(),
            Answer::ReaderShown(numbers, memory) => format!("{} {}", numbers.line(), hex(memory)),
        }
    }
}

fn answer_to_read(given: &OnChannel) -> Answer {
    let answer = frame::read(given.channel, &given.bytes);
    let payload = frame::payload(&answer, &given.bytes).to_vec();
    Answer::Read(answer, payload)
}

fn lent(room: usize) -> Vec<u8> {
    vec![UNTOUCHED; room]
}

fn answer_to_write(write: &Write) -> Answer {
    let mut output = lent(write.room);
    let answer = frame::write(write.channel, &write.given(), &write.payload, &mut output);
    Answer::Write(answer, output)
}

fn answer_to_encode(encode: &Encode) -> Answer {
    let mut output = lent(encode.room);
    let answer = wire::encode(encode.channel, encode.start, &encode.frame, &mut output);
    Answer::Encode(answer, output)
}

fn answer_to_opening(opening: &Opening, held: &mut SlotStatus) -> Answer {
    let answer = slot::open(opening.settings, opening.channel, opening.slot, opening.cycle);
    // A field out of range is the first cause of all, so that a field is told with 17 only.
    let field = opening.settings.first_out_of_range().unwrap_or(0);
    let told = answer.as_ref().map(|_| ()).map_err(|refusal| *refusal);
    // 01 "Refusal numbers": no state was handed in, so that a refusal gives the one of all zeros.
    *held = answer.unwrap_or_default();
    Answer::Opened(told, field)
}

/// A refused event gives back the very status that was handed in.
fn answer_to_event(event: &Event, held: &mut SlotStatus) -> Answer {
    Answer::Event(held.after(event).map(|after| *held = after))
}

fn answer_to_put(numbers: &StatusNumbers, held: &mut SlotStatus) -> Answer {
    *held = numbers.status();
    Answer::StatusPut
}

fn answer_to_load(settings: Settings, held: &mut ClockState) -> Answer {
    let answer = clock::load(settings);
    let field = settings.first_out_of_range().unwrap_or(0);
    let told = answer.as_ref().map(|_| ()).map_err(|refusal| *refusal);
    // No state was handed in, as with the opening of a slot.
    *held = answer.unwrap_or_default();
    Answer::Loaded(told, field)
}

fn answer_to_open_cycle(cycle: u8, held: &mut ClockState) -> Answer {
    Answer::CycleOpened(held.opened(cycle).map(|after| *held = after))
}

fn answer_to_measure(times: Times, held: &mut Held) -> Answer {
    let answer = held.clock.measured(&held.status, times);
    Answer::Measured(answer.map(|(after, deviation)| {
        held.clock = after;
        deviation
    }))
}

fn answer_to_close(controls: Controls, held: &mut ClockState) -> Answer {
    let answer = held.closed(controls);
    Answer::Closed(answer.map(|(after, closing)| {
        *held = after;
        Box::new(closing)
    }))
}

fn answer_to_put_clock(numbers: &ClockNumbers, held: &mut ClockState) -> Answer {
    *held = numbers.state();
    Answer::ClockPut
}

fn answer_to_open_reader(channel: u8, held: &mut Reader) -> Answer {
    let answer = reader::open(channel);
    // No state was handed in, as with the opening of a slot.
    *held = answer.unwrap_or_default();
    Answer::ReaderOpened(answer.map(|_| ()))
}

fn answer_to_listen(listen: &Listen, held: &mut Held) -> Answer {
    Answer::Heard(listening::calls(&mut held.reader, &listen.samples(), &mut held.memory[..listen.room]))
}

fn answer_to_put_reader(numbers: &ReaderNumbers, held: &mut Reader) -> Answer {
    *held = numbers.reader();
    Answer::ReaderPut
}

pub fn field_numbers(fields: &Fields) -> String {
    let indicators = fields.indicators.sent().map(|bit| u8::from(bit).to_string()).join(" ");
    format!("{indicators} {} {} {} {}", fields.id, fields.words, fields.header_checksum, fields.cycle)
}

pub fn hex(bytes: &[u8]) -> String {
    if bytes.is_empty() {
        return "-".to_string();
    }
    bytes.iter().map(|byte| format!("{byte:02x}")).collect()
}
