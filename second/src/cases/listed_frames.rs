//! Frames that are known whole, header checksums and polynomials that are known, and what their distance promises.

use crate::bits;
use crate::channel::Channel;
use crate::checksum::{self, FRAME_FACTORS, HEADER_FACTORS};
use crate::draft::Draft;
use crate::frame::NULL_FRAME_BIT;
use crate::listed_frames::{self, ListedFrame};
use crate::plan::{Expected, Plan};
use crate::random::Random;
use crate::script::Command;

pub fn add(plan: &mut Plan, random: &mut Random) {
    for channel in Channel::BOTH {
        for frame in listed_frames::ALL {
            add_whole_frame(plan, channel, &frame);
        }
        add_header_checksums(plan, channel);
        add_36_words(plan, random, channel);
        add_header_polynomial(plan, channel);
        add_frame_polynomial(plan, channel);
        add_wrong_bits(plan, random, channel);
    }
}

fn add_number(plan: &mut Plan, command: Command, line: String) {
    plan.add(command, Expected::Line(line));
}

/// Written apart from that of the answers, which is checked by it.
pub(super) fn hex(bytes: &[u8]) -> String {
    if bytes.is_empty() {
        return "-".to_string();
    }
    bytes.iter().map(|byte| format!("{byte:02x}")).collect()
}

/// Read on both channels, written, and its checksum worked out.
fn add_whole_frame(plan: &mut Plan, channel: Channel, frame: &ListedFrame) {
    let bytes = frame.bytes(channel);
    let read = format!("read 0 {} {} 0 0", frame.fields, hex(frame.payload));
    add_number(plan, Command::read(channel.number(), &bytes), read);
    let strange = format!("read 8 - {}", frame.strange(channel));
    add_number(plan, Command::read(channel.other().number(), &bytes), strange);
    add_number(plan, Command::Write(frame.write(channel)), format!("write 0 {} {}", bytes.len(), hex(&bytes)));
    let [high, middle, low] = frame.trailer(channel);
    let checksum = u32::from_be_bytes([0, high, middle, low]);
    let covered = &bytes[..bytes.len() - 3];
    add_number(plan, Command::checksum(channel.number(), covered), format!("checksum 0 {checksum}"));
}

/// Sync and startup, ID and words with the header checksum that belongs to them.
type Covered = (u8, u8, u16, u8, u16);

pub const HEADER_CHECKSUMS: [Covered; 6] = [
    (0, 0, 1, 0, 0x69F),
    (1, 1, 1, 8, 0x11B),
    (1, 0, 2047, 127, 0x4F7),
    (0, 0, 2047, 0, 0x666),
    (1, 1, 3, 2, 0x55C),
    (0, 0, 100, 127, 0x4AA),
];

/// A frame without reserved and preamble bit, null frame bit 1, cycle 9 and zeros as payload.
fn add_header(plan: &mut Plan, draft: &Draft, (sync, startup, id, words, checksum): Covered) {
    let (channel, payload) = (draft.channel.number(), hex(&vec![0; 2 * usize::from(words)]));
    let line = format!("read 0 0 0 1 {sync} {startup} {id} {words} {checksum} 9 {payload} 0 0");
    add_number(plan, Command::read(channel, &draft.bytes()), line);
    // Any other checksum is refused, and told before the one that belongs there.
    let wrong = Draft { header_checksum_change: 1, ..draft.clone() };
    add_number(plan, Command::read(channel, &wrong.bytes()), format!("read 4 - {} {checksum}", checksum ^ 1));
}

fn add_header_checksums(plan: &mut Plan, channel: Channel) {
    for covered in HEADER_CHECKSUMS {
        let (sync, startup, id, words, _) = covered;
        let flags = NULL_FRAME_BIT | sync << 3 | startup << 4;
        add_header(plan, &Draft::plain(channel, flags, id, words, 9), covered);
    }
}

/// As the bench program tells it: 8 + 72 bytes.
fn add_36_words(plan: &mut Plan, random: &mut Random, channel: Channel) {
    let plain = Draft::plain(channel, NULL_FRAME_BIT, 19, 36, 7);
    let bytes = Draft { payload: random.bytes(72), ..plain }.bytes();
    let line = "accepted 19 7 36".to_string();
    add_number(plan, Command::bench(channel.number(), &bytes), line);
}

/// Bits that are covered by the header checksum: sync and startup 0, ID and words as the lowest 18 bits say. The start
/// value is taken away from the first eleven of the twenty, so that the division is that of the number alone.
fn header_dividing(channel: Channel, number: u32) -> Draft {
    let covered = number ^ 0x01A << 9;
    Draft::plain(channel, NULL_FRAME_BIT, (covered >> 7) as u16, (covered & 0x7F) as u8, 9)
}

/// The same where the bits covered stand for 0, for 1 and for the product of the factors: what is left of 1 is the
/// polynomial without its highest term, and of the product nothing.
pub const HEADER_REMAINDERS: [Covered; 3] = [(0, 0, 104, 0, 0), (0, 0, 104, 1, 0x385), (0, 0, 127, 5, 0)];

fn add_header_polynomial(plan: &mut Plan, channel: Channel) {
    let numbers = [0, 1, checksum::product(&HEADER_FACTORS)];
    for (number, covered) in numbers.into_iter().zip(HEADER_REMAINDERS) {
        add_header(plan, &header_dividing(channel, number), covered);
    }
}

/// The polynomial of the frame checksum without its highest term, which is left of four bytes that stand for 1.
pub const REMAINDER: u32 = 0x5D6DCB;

fn add_frame_polynomial(plan: &mut Plan, channel: Channel) {
    let product = checksum::product(&FRAME_FACTORS);
    for (number, checksum) in [(0, 0), (1, REMAINDER), (product, 0), (product ^ 1, REMAINDER)] {
        let bytes = (number ^ channel.start_value() << 8).to_be_bytes();
        add_number(plan, Command::checksum(channel.number(), &bytes), format!("checksum 0 {checksum}"));
    }
}

/// Up to 248 payload bytes two frames differ in six bits at least.
fn add_wrong_bits(plan: &mut Plan, random: &mut Random, channel: Channel) {
    for (words, rounds) in [(0, 40), (3, 40), (124, 8)] {
        let frame = Draft::fair(random, channel, words).bytes();
        for count in 1..=5 {
            for _ in 0..rounds {
                let bytes = with_wrong_bits(random, &frame, count);
                plan.add(Command::read(channel.number(), &bytes), Expected::Damaged(frame.clone()));
                plan.add(Command::bench(channel.number(), &bytes), Expected::Damaged(frame.clone()));
            }
        }
    }
}

/// As many different bits turned over.
fn with_wrong_bits(random: &mut Random, frame: &[u8], count: usize) -> Vec<u8> {
    let mut places: Vec<usize> = (0..8 * frame.len()).collect();
    random.shuffle(&mut places);
    let mut bytes = frame.to_vec();
    places[..count].iter().for_each(|place| bits::flip(&mut bytes, *place));
    bytes
}
