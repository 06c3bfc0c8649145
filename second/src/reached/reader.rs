//! Readers of the wire: what they told, bit by bit and sample by sample, and what was shown of them.

use super::choices::any;
use super::stays::{Origin, Subject};
use super::Reached;
use crate::answer::Answer;
use crate::channel::Channel;
use crate::checksum_pair::ChecksumPair;
use crate::decoder::{Phase, Told};
use crate::frame::{self, LARGEST_FRAME, SMALLEST_FRAME};
use crate::reader::{Reader, IDLE_SAMPLES};
use crate::reader_numbers::ReaderNumbers;
use crate::refusal::{Refusal, TOLD};
use crate::samples;
use crate::script::Listen;

/// The fewest samples of a piece that is held against a stream.
const LONG_ENOUGH: usize = 17;

/// What lies behind the samples of a reader that was opened or put.
#[derive(Debug, Default)]
pub(super) struct Behind {
    /// All pieces since it was opened, one behind the other, and where each ends.
    samples: Vec<u8>,
    ends: Vec<usize>,
    /// What was told last.
    told: &'static str,
    /// The high bits since the last low one.
    high_bits: usize,
    /// The samples since the last strobe.
    since_strobe: usize,
}

impl Behind {
    fn opened() -> Behind {
        Behind { told: "nothing", ..Behind::default() }
    }
}

impl Reached {
    pub(super) fn add_open_reader(&mut self, answer: &Answer) {
        self.reader_from = answer.refusal().map_or(Origin::Opened, Origin::Refused);
        self.behind = Behind::opened();
        self.put_reader = None;
    }

    pub(super) fn add_put_reader(&mut self, numbers: &ReaderNumbers) {
        self.reader_from = Origin::Put;
        self.behind = Behind { told: "a put", ..Behind::default() };
        self.put_reader = Some(*numbers);
    }

    pub(super) fn add_listen(&mut self, listen: &Listen, answer: &Answer) {
        let Answer::Heard(calls) = answer else {
            return;
        };
        if answer.refusal().is_some() {
            return;
        }
        let channel = self.held.reader.channel.number();
        for call in calls.iter().filter(|call| call.tells()) {
            *self.answers.entry(('y', call.number())).or_default() += 1;
            self.add(format!("told {} on {channel}", call.number()));
        }
        for call in calls {
            self.add_null_frame('Y', channel, &call.bytes, call.number());
        }
        let sizes: Vec<usize> = calls.iter().map(|call| call.bytes.len()).filter(|size| *size > 0).collect();
        self.add(format!("piece with {} frames", sizes.len()));
        for size in sizes {
            self.add(format!("frame of {size} bytes"));
            self.add(format!("frame of {size} bytes on {channel}"));
        }
        self.add_unlooked_of_reader();
        let samples = listen.samples();
        self.add_changed_stream(&samples);
        let walked = self.walk(&samples);
        self.check_heard(calls, &walked);
    }

    /// The same samples again, one by one, with what each bit finds. What errors tell comes back.
    fn walk(&mut self, samples: &[u8]) -> Vec<(u8, ChecksumPair)> {
        let (mut reader, mut memory) = (self.held.reader, self.held.memory.clone());
        let mut errors = Vec::new();
        for sample in samples {
            let before = reader;
            let told = reader.take(*sample, &mut memory);
            self.add(format!("sample {sample}"));
            self.behind.since_strobe += 1;
            // Only a strobe leads from 5 to 6.
            if before.clock.counter == 5 && reader.clock.counter == 6 {
                self.add_bit(&before, reader.clock.voted);
                self.behind.since_strobe = 0;
            }
            match told {
                Told::Nothing => (),
                Told::Frame(..) => self.behind.told = "a frame",
                Told::Error(error) => {
                    self.add_error(&before, error.refusal, &memory);
                    errors.push(self.add_heard_checksums(&before, error.number(), &memory));
                }
            }
        }
        self.behind.samples.extend(samples);
        self.behind.ends.push(self.behind.samples.len());
        errors
    }

    fn add_bit(&mut self, before: &Reader, high: bool) {
        let ReaderNumbers { phase, number, .. } = ReaderNumbers::of(before);
        let (bit, channel) = (u8::from(high), before.channel.number());
        self.add(format!("bit {bit} in phase {phase} behind {number} on {channel}"));
        if before.decoder.phase.has_bytes() {
            self.add(format!("strobes {} apart", self.behind.since_strobe));
        }
        if before.decoder.phase == Phase::Waiting && !high {
            self.add_low_bit(before);
        }
        self.behind.high_bits = if high { self.behind.high_bits + 1 } else { 0 };
    }

    /// While waiting; where the channel is idle it begins a start.
    fn add_low_bit(&mut self, before: &Reader) {
        let timer = IDLE_SAMPLES.min(before.timer + 1);
        let (told, high_bits) = (self.behind.told, self.behind.high_bits);
        self.add(format!("low bit at {timer} behind {told}"));
        self.add(format!("low bit behind {high_bits} high ones and {told}"));
        self.behind.told = if timer == IDLE_SAMPLES { "a start" } else { told };
    }

    fn add_error(&mut self, before: &Reader, error: Refusal, memory: &[u8]) {
        self.behind.told = "an error";
        let bytes = &memory[..before.decoder.count.into()];
        let other = before.channel.other().number();
        if error == Refusal::FrameChecksum && frame::read(other, bytes).is_ok() {
            self.add(format!("frame of channel {other} heard on the other one"));
        }
    }

    /// The end of a known stream in which one sample or two are changed.
    fn add_changed_stream(&mut self, samples: &[u8]) {
        let streams = [
            ("short stream", samples::short_stream(self.held.reader.channel)),
            ("false start", samples::false_start()),
        ];
        for (name, stream) in streams {
            match changes(&stream, samples)[..] {
                [place] => self.add(format!("{name} changed at {place}")),
                [one, other] => self.add(format!("{name} changed at two places {} apart", other - one)),
                _ => (),
            }
        }
    }

    pub(super) fn add_shown_reader(&mut self) {
        self.add_shown(&[Subject::Reader]);
        let ReaderNumbers { channel, phase, .. } = ReaderNumbers::of(&self.held.reader);
        self.add(format!("phase {phase} shown on {}", channel.number()));
        let stream = samples::short_stream(channel);
        if self.reader_from != Origin::Opened || self.behind.samples != stream {
            return;
        }
        match self.behind.ends[..] {
            [first, _] => self.add(format!("short stream cut at {first}")),
            _ => self.add(format!("short stream in {} pieces", self.behind.ends.len())),
        }
    }

    /// What a script says of a reader but nobody looks at.
    fn add_unlooked_of_reader(&mut self) {
        let Some(numbers) = self.put_reader.take() else {
            return;
        };
        let ReaderNumbers { samples, phase, number, value, .. } = numbers;
        let looked_at = numbers.looked_at();
        let mut all: Vec<String> =
            (4..8).filter(|bit| samples >> bit & 1 == 1).map(|bit| format!("unlooked bit {bit} of samples")).collect();
        all.extend((number != looked_at.number).then(|| format!("unlooked number of phase {phase}")));
        all.extend((value != looked_at.value).then(|| format!("unlooked value of phase {phase}")));
        all.into_iter().for_each(|unlooked| self.add_of('Y', unlooked));
    }
}

/// The places of a stream whose level is another in a piece that is as long as its end.
fn changes(stream: &[u8], piece: &[u8]) -> Vec<usize> {
    if piece.len() < LONG_ENOUGH || piece.len() > stream.len() {
        return Vec::new();
    }
    let first = stream.len() - piece.len();
    (first..stream.len()).filter(|place| (stream[*place] == 0) != (piece[place - first] == 0)).collect()
}

/// Every number on both channels, both ends of every count, and where a frame begins to be heard: by 02 C-13 eleven idle
/// bits are enough, and by the rule of idle 85 samples before the first frame and nine bits behind another.
pub(super) fn required() -> Vec<String> {
    let told = any(TOLD.map(Refusal::number));
    let high = any([1, 2, 127, 128, 255]);
    let last = samples::short_stream(Channel::A).len();
    let mut all = vec![
        format!("told <0|{told}> on <0|1>"),
        // Reading's own numbers, which bytes give that were not heard as the reader says.
        "told <3|5> on <0|1>".to_string(),
        "frame of channel <0|1> heard on the other one".to_string(),
        "phase <0..7> shown on <0|1>".to_string(),
        "bit <0|1> in phase 1 behind <1..17> on <0|1>".to_string(),
        "bit <0|1> in phase 2 behind <1..3> on <0|1>".to_string(),
        "bit <0|1> in phase <0|3|4|6|7> behind 0 on <0|1>".to_string(),
        "bit <0|1> in phase 5 behind <0..7> on <0|1>".to_string(),
        "strobes <5..12> apart".to_string(),
        "low bit at <86|87|88> behind <nothing|a frame|an error>".to_string(),
        "low bit behind <9|10|11|12> high ones and <a frame|an error>".to_string(),
        format!("sample <0|{high}>"),
        "piece with <0|1|2|3> frames".to_string(),
        format!("short stream cut at <0..{last}>"),
        format!("short stream in <1|{last}> pieces"),
        // Idle samples lie before a start that comes to nothing as well.
        format!("short stream changed at <88..{}>", last - 1),
        "false start changed at <0..127>".to_string(),
        "short stream changed at two places <3|4> apart".to_string(),
        "unlooked bit <4..7> of samples".to_string(),
        "unlooked number of phase <0|3|4|6|7>".to_string(),
        "unlooked value of phase <0|1|2|3|4|6|7>".to_string(),
    ];
    let sizes = any((SMALLEST_FRAME..=LARGEST_FRAME).step_by(2));
    all.push(format!("frame of <{sizes}> bytes"));
    all.push(format!("frame of <{SMALLEST_FRAME}|{LARGEST_FRAME}> bytes on <0|1>"));
    all
}
