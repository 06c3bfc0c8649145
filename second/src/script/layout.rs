//! The parts of every command in their order, told once: for taking them from a script and for adding them to one.

use super::{
    Broken, Cause, Command, Encode, Letters, Listen, OnChannel, Opening, Run, Write, LIMIT, MEMORY, MOST_RUNS,
    MOST_SAMPLES,
};
use crate::channel::Channel;
use crate::checksum_pair::ChecksumPair;
use crate::clock::Times;
use crate::clock_numbers::{ClockNumbers, ListNumbers, RowNumbers};
use crate::closing::Controls;
use crate::reader_numbers::{ReaderNumbers, LAST_PHASE};
use crate::settings::Settings;
use crate::sheet_mark::SheetMark;
use crate::status_numbers::{HeaderNumbers, StatusNumbers};

/// The highest content reason that a script may name: (f) of 02 C-15.
const LAST_REASON: u8 = 6;

type Done = Result<(), Cause>;

/// One way through the parts: each is filled from a script, or stays and is added to it.
trait Way {
    fn byte(&mut self, byte: &mut u8) -> Done;

    /// What can't be taken; a script that is built may be broken on purpose.
    fn forbid(&self, wrong: bool, cause: Cause) -> Done;

    fn bytes(&mut self, bytes: &mut [u8]) -> Done {
        bytes.iter_mut().try_for_each(|byte| self.byte(byte))
    }

    fn number(&mut self, number: &mut u16) -> Done {
        let mut bytes = number.to_le_bytes();
        self.bytes(&mut bytes)?;
        *number = u16::from_le_bytes(bytes);
        Ok(())
    }

    fn long(&mut self, number: &mut u32) -> Done {
        let mut bytes = number.to_le_bytes();
        self.bytes(&mut bytes)?;
        *number = u32::from_le_bytes(bytes);
        Ok(())
    }

    fn signed(&mut self, number: &mut i32) -> Done {
        let mut bits = *number as u32;
        self.long(&mut bits)?;
        *number = bits as i32;
        Ok(())
    }

    fn control(&mut self, control: &mut i8) -> Done {
        let mut bits = *control as u8;
        self.byte(&mut bits)?;
        *control = bits as i8;
        Ok(())
    }

    fn switch(&mut self, switch: &mut bool) -> Done {
        let mut byte = u8::from(*switch);
        self.byte(&mut byte)?;
        *switch = byte == 1;
        self.forbid(byte > 1, Cause::WrongSwitch)
    }

    fn channel_switch(&mut self, channel: &mut Channel) -> Done {
        let mut on_b = *channel == Channel::B;
        self.switch(&mut on_b)?;
        *channel = if on_b { Channel::B } else { Channel::A };
        Ok(())
    }

    /// Sizes, rooms and how many runs there are: broken in the same way but for different causes.
    fn limited(&mut self, size: &mut usize, most: usize, above: Cause) -> Done {
        let mut number = *size as u16;
        self.number(&mut number)?;
        *size = number.into();
        self.forbid(*size > most, above)
    }

    fn sized(&mut self, bytes: &mut Vec<u8>) -> Done {
        let mut size = bytes.len();
        self.limited(&mut size, LIMIT, Cause::SizeAbove)?;
        bytes.resize(size, 0);
        self.bytes(bytes)
    }

    /// The size of the output that is lent.
    fn room(&mut self, room: &mut usize) -> Done {
        self.limited(room, LIMIT, Cause::RoomAbove)
    }

    fn on_channel(&mut self, given: &mut OnChannel) -> Done {
        self.byte(&mut given.channel)?;
        self.sized(&mut given.bytes)
    }

    fn write(&mut self, write: &mut Write) -> Done {
        self.byte(&mut write.channel)?;
        self.byte(&mut write.flags)?;
        self.number(&mut write.id)?;
        self.byte(&mut write.cycle)?;
        self.sized(&mut write.payload)?;
        self.room(&mut write.room)
    }

    fn encode(&mut self, encode: &mut Encode) -> Done {
        self.byte(&mut encode.channel)?;
        self.byte(&mut encode.start)?;
        self.sized(&mut encode.frame)?;
        self.room(&mut encode.room)
    }

    /// Without their mark, which stands at the end of the item.
    fn settings(&mut self, settings: &mut Settings) -> Done {
        settings.fields.iter_mut().try_for_each(|field| self.long(field))?;
        self.switch(&mut settings.sends_sync)
    }

    fn mark(&mut self, mark: &mut SheetMark) -> Done {
        self.long(&mut mark.0)
    }

    fn load(&mut self, settings: &mut Settings) -> Done {
        self.settings(settings)?;
        self.mark(&mut settings.mark)
    }

    fn opening(&mut self, opening: &mut Opening) -> Done {
        self.settings(&mut opening.settings)?;
        self.byte(&mut opening.channel)?;
        self.number(&mut opening.slot)?;
        self.byte(&mut opening.cycle)?;
        self.mark(&mut opening.settings.mark)
    }

    fn status(&mut self, status: &mut StatusNumbers) -> Done {
        self.settings(&mut status.settings)?;
        self.channel_switch(&mut status.channel)?;
        self.number(&mut status.slot)?;
        self.byte(&mut status.cycle)?;
        self.byte(&mut status.marks)?;
        self.byte(&mut status.reason)?;
        self.forbid(status.reason > LAST_REASON, Cause::ReasonAbove)?;
        self.switch(&mut status.kept)?;
        self.header(&mut status.header)?;
        self.mark(&mut status.settings.mark)?;
        self.checksums(&mut status.checksums)
    }

    fn checksums(&mut self, checksums: &mut ChecksumPair) -> Done {
        self.long(&mut checksums.found)?;
        self.long(&mut checksums.expected)
    }

    fn header(&mut self, header: &mut HeaderNumbers) -> Done {
        self.byte(&mut header.flags)?;
        self.number(&mut header.id)?;
        self.byte(&mut header.words)?;
        self.number(&mut header.checksum)?;
        self.byte(&mut header.cycle)
    }

    fn times(&mut self, times: &mut Times) -> Done {
        self.long(&mut times.observed)?;
        self.long(&mut times.action_point)
    }

    fn controls(&mut self, controls: &mut Controls) -> Done {
        self.control(&mut controls.offset)?;
        self.control(&mut controls.rate)
    }

    fn clock(&mut self, clock: &mut ClockNumbers) -> Done {
        self.settings(&mut clock.settings)?;
        self.switch(&mut clock.open)?;
        self.byte(&mut clock.cycle)?;
        self.switch(&mut clock.closed)?;
        self.byte(&mut clock.last)?;
        self.signed(&mut clock.rate)?;
        clock.lists.iter_mut().try_for_each(|list| self.list(list))?;
        self.mark(&mut clock.settings.mark)?;
        clock.lists.iter_mut().flat_map(|list| &mut list.rows).try_for_each(|row| self.pair(row))
    }

    fn list(&mut self, list: &mut ListNumbers) -> Done {
        self.byte(&mut list.count)?;
        list.rows.iter_mut().try_for_each(|row| self.row(row))
    }

    fn row(&mut self, row: &mut RowNumbers) -> Done {
        self.number(&mut row.id)?;
        self.byte(&mut row.seen)?;
        row.deviations.iter_mut().try_for_each(|deviation| self.signed(deviation))
    }

    fn pair(&mut self, row: &mut RowNumbers) -> Done {
        row.pair.iter_mut().try_for_each(|mark| self.mark(mark))
    }

    fn listen(&mut self, listen: &mut Listen) -> Done {
        self.limited(&mut listen.room, MEMORY, Cause::MemoryAbove)?;
        let mut runs = listen.runs.len();
        self.limited(&mut runs, MOST_RUNS, Cause::RunsAbove)?;
        listen.runs.resize(runs, Run::default());
        let mut samples = 0;
        for run in &mut listen.runs {
            self.byte(&mut run.sample)?;
            self.byte(&mut run.times)?;
            samples += usize::from(run.times);
            self.forbid(samples > MOST_SAMPLES, Cause::SamplesAbove)?;
        }
        Ok(())
    }

    fn reader(&mut self, reader: &mut ReaderNumbers) -> Done {
        self.channel_switch(&mut reader.channel)?;
        self.byte(&mut reader.samples)?;
        self.byte(&mut reader.seen)?;
        self.switch(&mut reader.voted)?;
        self.byte(&mut reader.counter)?;
        self.switch(&mut reader.realigns)?;
        self.byte(&mut reader.timer)?;
        self.byte(&mut reader.phase)?;
        self.forbid(reader.phase > LAST_PHASE, Cause::PhaseAbove)?;
        self.byte(&mut reader.number)?;
        self.byte(&mut reader.value)?;
        self.number(&mut reader.count)?;
        self.long(&mut reader.since)
    }

    /// Behind its letter.
    fn command(&mut self, command: &mut Command) -> Done {
        match command {
            Command::Checksum(given) | Command::Read(given) => self.on_channel(given),
            Command::Write(write) => self.write(write),
            Command::Encode(encode) => self.encode(encode),
            Command::Bench(bytes) | Command::Arrived(bytes) => self.sized(bytes),
            Command::OpenSlot(opening) => self.opening(opening),
            Command::PutStatus(numbers) => self.status(numbers),
            Command::Load(settings) => self.load(settings),
            Command::OpenCycle(cycle) => self.byte(cycle),
            Command::Measure(times) => self.times(times),
            Command::CloseCycle(controls) => self.controls(controls),
            Command::PutClock(numbers) => self.clock(numbers),
            Command::OpenReader(channel) => self.byte(channel),
            Command::Listen(listen) => self.listen(listen),
            Command::PutReader(numbers) => self.reader(numbers),
            Command::Boundary | Command::OwnSending | Command::Show | Command::ShowReader => Ok(()),
        }
    }
}

/// Building.
impl Way for Vec<u8> {
    fn byte(&mut self, byte: &mut u8) -> Done {
        self.push(*byte);
        Ok(())
    }

    fn forbid(&self, _: bool, _: Cause) -> Done {
        Ok(())
    }
}

impl Command {
    /// Adds the command to the end of a script.
    pub fn append_to(&self, script: &mut Vec<u8>) {
        script.push(self.letter() as u8);
        script.command(&mut self.clone()).expect("nothing is forbidden in building");
    }
}

/// The part of a script that is still to be played.
pub struct Rest<'a> {
    bytes: &'a [u8],
    letters: Letters,
}

/// Taking apart.
impl Way for Rest<'_> {
    fn byte(&mut self, byte: &mut u8) -> Done {
        (*byte, self.bytes) = self.bytes.split_first().map(|(first, rest)| (*first, rest)).ok_or(Cause::EndInside)?;
        Ok(())
    }

    fn forbid(&self, wrong: bool, cause: Cause) -> Done {
        if wrong {
            return Err(cause);
        }
        Ok(())
    }
}

impl<'a> Rest<'a> {
    pub fn of(script: &'a [u8], letters: Letters) -> Rest<'a> {
        Rest { bytes: script, letters }
    }

    pub fn is_empty(&self) -> bool {
        self.bytes.is_empty()
    }

    /// The next command of a script that isn't at its end, or how it is broken there.
    pub fn take_command(&mut self) -> Result<Command, Broken> {
        let whole = self.bytes;
        self.take_whole().map_err(|cause| Broken {
            cause,
            letter: whole[0].into(),
            place: whole.len() - self.bytes.len() - 1,
        })
    }

    fn take_whole(&mut self) -> Result<Command, Cause> {
        let mut letter = 0;
        self.byte(&mut letter)?;
        let known = Command::blank(letter.into()).filter(|command| self.letters.know(command.letter()));
        let mut command = known.ok_or(Cause::UnknownLetter)?;
        self.command(&mut command)?;
        Ok(command)
    }
}
