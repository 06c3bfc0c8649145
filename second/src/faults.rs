//! Commands in which the asked-for refusals have their cause, and no earlier one has.

use crate::channel::Channel;
use crate::draft::{fair_cycle, fair_id, fair_indicators, fair_words, foreign_channel, Draft};
use crate::frame::{Indicators, HIGHEST_CYCLE, HIGHEST_ID, LARGEST_PAYLOAD, MOST_WORDS, SMALLEST_FRAME};
use crate::payloads;
use crate::random::Random;
use crate::refusal::Refusal;
use crate::scene::Scene;
use crate::script::{Command, Encode, OnChannel, Opening, Write, LIMIT};
use crate::settings::{self, FIELDS};
use crate::unreadable::number_of_any_length;
use crate::wire::{self, START_LENGTHS};

/// Every selection from an order, the empty one first; each keeps the order.
pub fn selections<T: Copy>(order: &[T]) -> Vec<Vec<T>> {
    (0..1usize << order.len()).map(|marks| selection(order, marks)).collect()
}

fn selection<T: Copy>(order: &[T], marks: usize) -> Vec<T> {
    let marked = order.iter().enumerate().filter(|(place, _)| marks >> place & 1 == 1);
    marked.map(|(_, member)| *member).collect()
}

/// A selection with few members as a rule.
pub fn some_faults(random: &mut Random, order: &[Refusal]) -> Vec<Refusal> {
    order.iter().copied().filter(|_| random.one_in(6)).collect()
}

/// A frame checksum, which can be refused for its channel only.
pub fn faulty_checksum(random: &mut Random, faults: &[Refusal]) -> Command {
    let channel = random.pick(&Channel::BOTH);
    Command::checksum(channel_number(random, channel, faults), &random.bytes(5))
}

/// A read in which each of the named refusals has a cause.
pub fn faulty_read(random: &mut Random, faults: &[Refusal]) -> Command {
    Command::Read(faulty_frame(random, faults))
}

/// The same for the bench program, which refuses as a read does.
pub fn faulty_bench(random: &mut Random, faults: &[Refusal]) -> Command {
    bench_of(&faulty_frame(random, faults))
}

/// The bench program's input in place of a read. The last byte of the longest has no room in a script; it is one of far
/// more than a frame can have.
pub fn bench_of(given: &OnChannel) -> Command {
    let kept = given.bytes.len().min(LIMIT - 1);
    Command::bench(given.channel, &given.bytes[..kept])
}

fn faulty_frame(random: &mut Random, faults: &[Refusal]) -> OnChannel {
    let channel = random.pick(&Channel::BOTH);
    let words = fair_words(random);
    let fair = Draft::fair(random, channel, words);
    let wrong = faulty_draft(random, fair, faults);
    let bytes = cut_short(random, wrong.bytes(), faults);
    OnChannel { channel: channel_number(random, channel, faults), bytes }
}

/// All bytes of a frame, or fewer than any has where there has to be a cause for 2.
pub fn cut_short(random: &mut Random, mut bytes: Vec<u8>, faults: &[Refusal]) -> Vec<u8> {
    if faults.contains(&Refusal::TooFewBytes) {
        // An odd size below 8 has the causes of both 2 and 3.
        bytes.truncate(2 * random.below(4) + usize::from(faults.contains(&Refusal::Size)));
    }
    bytes
}

/// A frame with a cause in it for each of the named refusals but those of the channel and of too few bytes.
pub fn faulty_draft(random: &mut Random, mut draft: Draft, faults: &[Refusal]) -> Draft {
    draft.indicators = with_startup_fault(draft.indicators, faults);
    if faults.contains(&Refusal::Size) {
        draft.payload = misfit_payload(random);
    }
    if faults.contains(&Refusal::WordsAgainstSize) {
        draft.words = other_words(random, draft.words);
    }
    if faults.contains(&Refusal::IdRead) {
        draft.id = 0;
    }
    if faults.contains(&Refusal::HeaderChecksum) {
        let right = draft.header_checksums().expected;
        draft.header_checksum_change = turned_over(random, right, 11) as u16;
    }
    if faults.contains(&Refusal::FrameChecksum) {
        let right = draft.frame_checksums_on(draft.channel).expected;
        draft.frame_checksum_change = turned_over(random, right, 24);
    }
    draft
}

/// Bits of a checksum that are turned over: one, any, or those that leave a small number or 0.
fn turned_over(random: &mut Random, right: u32, width: u32) -> u32 {
    let found = if random.coin() { number_of_any_length(random, width) } else { right };
    if found == right {
        return 1 << random.below(width as usize);
    }
    found ^ right
}

/// A payload that makes the frame's size odd, or longer than any frame.
fn misfit_payload(random: &mut Random) -> Vec<u8> {
    let size = match random.below(10) {
        0 => LARGEST_PAYLOAD + 1,
        1 => LARGEST_PAYLOAD + 2,
        2 => random.between(LARGEST_PAYLOAD + 1, LIMIT - SMALLEST_FRAME),
        _ => 2 * random.below(8) + 1,
    };
    random.bytes(size)
}

/// A number of words that isn't this one.
pub fn other_words(random: &mut Random, words: u8) -> u8 {
    if words > 0 && random.one_in(3) {
        return words - 1;
    }
    if words < MOST_WORDS && random.one_in(3) {
        return words + 1;
    }
    (words + random.between(1, MOST_WORDS.into()) as u8) % (MOST_WORDS + 1)
}

fn with_startup_fault(indicators: Indicators, faults: &[Refusal]) -> Indicators {
    if !faults.contains(&Refusal::StartupWithoutSync) {
        return indicators;
    }
    Indicators { sync: false, startup: true, ..indicators }
}

fn channel_number(random: &mut Random, channel: Channel, faults: &[Refusal]) -> u8 {
    if faults.contains(&Refusal::Channel) {
        return foreign_channel(random);
    }
    channel.number()
}

/// A write in which each of the named refusals has a cause.
pub fn faulty_write(random: &mut Random, faults: &[Refusal]) -> Command {
    let channel = random.pick(&Channel::BOTH);
    let size = faulty_size(random, faults);
    let fair = fair_write(random, channel, size);
    let not_zeros = faults.contains(&Refusal::NullFramePayload);
    let write = Write {
        channel: channel_number(random, channel, faults),
        flags: faulty_flags(fair.flags, faults),
        id: if faults.contains(&Refusal::IdGiven) { wrong_id(random) } else { fair.id },
        cycle: if faults.contains(&Refusal::Cycle) { wrong_cycle(random) } else { fair.cycle },
        payload: if not_zeros { payloads::not_zeros(random, size) } else { fair.payload },
        room: room_for(random, fair.room, faults.contains(&Refusal::Output)),
    };
    Command::Write(write)
}

/// A write that is taken, unless no frame has a payload of this size, with its room exact; the unnamed flag bits are at
/// random.
pub fn fair_write(random: &mut Random, channel: Channel, size: usize) -> Write {
    let indicators = Indicators { reserved: false, ..fair_indicators(random) };
    Write {
        channel: channel.number(),
        flags: indicators.flags() | (random.below(8) << 5) as u8,
        id: fair_id(random),
        cycle: fair_cycle(random),
        payload: payloads::writable(random, indicators, size),
        room: SMALLEST_FRAME + size,
    }
}

fn faulty_flags(flags: u8, faults: &[Refusal]) -> u8 {
    let unnamed = flags & 0b1110_0000;
    let indicators = with_startup_fault(Indicators::from_flags(flags), faults);
    let reserved = faults.contains(&Refusal::ReservedToWrite);
    let null_frame = indicators.null_frame && !faults.contains(&Refusal::NullFramePayload);
    unnamed | Indicators { reserved, null_frame, ..indicators }.flags()
}

/// That of the payload. One without a byte has none other than 0 either.
fn faulty_size(random: &mut Random, faults: &[Refusal]) -> usize {
    if !faults.contains(&Refusal::PayloadToWrite) {
        let fewest = u8::from(faults.contains(&Refusal::NullFramePayload));
        return 2 * usize::from(fair_words(random).max(fewest));
    }
    match random.below(12) {
        0 => LARGEST_PAYLOAD + 1,
        1 => LARGEST_PAYLOAD + 2,
        2 => random.between(LARGEST_PAYLOAD + 1, LIMIT),
        _ => 2 * random.below(8) + 1,
    }
}

/// IDs out of their range: those beside it, and the highest of all.
pub const WRONG_IDS: [u16; 3] = [0, HIGHEST_ID + 1, u16::MAX];

/// The same of cycles.
pub const WRONG_CYCLES: [u8; 2] = [HIGHEST_CYCLE + 1, u8::MAX];

fn wrong_id(random: &mut Random) -> u16 {
    match random.below(4) {
        0 | 1 => 0,
        2 => HIGHEST_ID + 1,
        _ => random.between(usize::from(HIGHEST_ID) + 1, 65535) as u16,
    }
}

pub fn wrong_cycle(random: &mut Random) -> u8 {
    if random.coin() {
        return random.pick(&WRONG_CYCLES);
    }
    random.between(usize::from(HIGHEST_CYCLE) + 1, 255) as u8
}

/// A room for so many bytes, or one that is too short for them.
fn room_for(random: &mut Random, size: usize, too_short: bool) -> usize {
    if too_short {
        return short_room(random, size).min(LIMIT);
    }
    if random.coin() {
        return size.min(LIMIT);
    }
    (size + random.below(9)).min(LIMIT)
}

fn short_room(random: &mut Random, size: usize) -> usize {
    match random.below(4) {
        0 => 0,
        1 => random.below(size),
        _ => size - 1,
    }
}

/// An encoding in which each of the named refusals has a cause.
pub fn faulty_encode(random: &mut Random, faults: &[Refusal]) -> Command {
    let given = faulty_frame(random, faults);
    encode_of(random, given, faults)
}

/// The same of any bytes, which have causes of their own or none.
pub fn encode_of(random: &mut Random, given: OnChannel, faults: &[Refusal]) -> Command {
    let wrong = faults.contains(&Refusal::StartLength);
    let start = if wrong { wrong_start(random) } else { fair_start(random) };
    let size = wire::packed_size(start, given.bytes.len());
    let room = room_for(random, size, faults.contains(&Refusal::PackedOutput));
    Command::Encode(Encode { room, ..Encode::exact(given, start) })
}

pub fn fair_start(random: &mut Random) -> u8 {
    random.between((*START_LENGTHS.start()).into(), (*START_LENGTHS.end()).into()) as u8
}

/// Start lengths out of their range: those beside it, and the highest of all. Written out, so that a wrong range shows.
pub const WRONG_STARTS: [u8; 3] = [0, 16, 255];

fn wrong_start(random: &mut Random) -> u8 {
    if random.coin() {
        return random.pick(&WRONG_STARTS);
    }
    random.between(usize::from(*START_LENGTHS.end()) + 1, 255) as u8
}

/// An opening of a slot in which each of the named refusals has a cause.
pub fn faulty_opening(random: &mut Random, faults: &[Refusal]) -> Opening {
    let scene = Scene::any(random);
    let fair = scene.opening();
    let field = random.between(1, FIELDS);
    let wrong = faults.contains(&Refusal::Setting);
    Opening {
        settings: if wrong { fair.settings.with_field(field, wrong_value(random, field)) } else { fair.settings },
        channel: channel_number(random, scene.channel, faults),
        slot: if faults.contains(&Refusal::IdGiven) { wrong_id(random) } else { fair.slot },
        cycle: if faults.contains(&Refusal::Cycle) { wrong_cycle(random) } else { fair.cycle },
    }
}

/// A value out of the range of a field.
pub fn wrong_value(random: &mut Random, field: usize) -> u32 {
    let (lowest, highest) = settings::ends(field);
    match random.below(4) {
        0 => lowest.checked_sub(1).unwrap_or(u32::MAX),
        1 => highest + 1,
        2 => random.between(highest as usize + 1, u32::MAX as usize) as u32,
        _ => random.pick(&[lowest + 0x1_0000, lowest + 0x8000_0000, u32::MAX]),
    }
}
