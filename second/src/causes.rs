//! Every refusal that a command has a cause for, whatever the answer.

use crate::answer::Held;
use crate::bench;
use crate::channel::Channel;
use crate::frame;
use crate::refusal::{holding, Refusal};
use crate::script::Command;
use crate::slot;
use crate::wire;

impl Command {
    /// In the order of the entry, on the states that are held.
    pub fn causes(&self, held: &Held) -> Vec<Refusal> {
        match self {
            Command::Checksum(given) => holding([(Refusal::Channel, Channel::from_number(given.channel).is_err())]),
            Command::Read(given) => frame::read_causes(given.channel, &given.bytes),
            Command::Write(write) => frame::write_causes(write.channel, &write.given(), &write.payload, write.room),
            Command::Bench(input) => bench::causes(input),
            Command::Encode(encode) => wire::encode_causes(encode.channel, encode.start, &encode.frame, encode.room),
            Command::OpenSlot(opening) => {
                slot::opening_causes(&opening.settings, opening.channel, opening.slot, opening.cycle)
            }
            Command::Arrived(_) | Command::Boundary | Command::OwnSending => {
                holding([(Refusal::NotSound, !held.status.is_sound())])
            }
            Command::Load(settings) => holding([(Refusal::Setting, settings.first_out_of_range().is_some())]),
            Command::OpenCycle(cycle) => held.clock.opening_causes(*cycle),
            Command::Measure(times) => held.clock.measuring_causes(&held.status, *times),
            Command::CloseCycle(controls) => held.clock.closing_causes(*controls),
            Command::OpenReader(channel) => holding([(Refusal::Channel, Channel::from_number(*channel).is_err())]),
            Command::Listen(listen) => held.reader.listening_causes(listen.room),
            Command::PutStatus(_) | Command::PutClock(_) | Command::PutReader(_) => Vec::new(),
            Command::Show | Command::ShowReader => Vec::new(),
        }
    }
}
