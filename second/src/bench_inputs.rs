//! Whole inputs for the bench program by 01 "Numbers to check against" and 02 C-18, each with its line written by hand.

use crate::bench::LONGEST_INPUT;
use crate::bits;
use crate::channel::Channel::{self, A, B};
use crate::draft::Draft;
use crate::frame::{LARGEST_FRAME, NULL_FRAME_BIT};
use crate::listed_frames::{LONG, SHORT};

pub struct BenchInput {
    pub name: &'static str,
    /// All that stands at the standard input.
    pub bytes: Vec<u8>,
    /// The line with its line feed.
    pub text: &'static str,
}

/// Far more than a script can hold, the channel's byte among them.
const MANY_BYTES: usize = 5000;

pub fn all() -> Vec<BenchInput> {
    let mut all = vec![BenchInput { name: "no_input", bytes: vec![], text: "refused 1\n" }];
    all.extend(channel_alone());
    all.extend(accepted());
    all.extend(other_channel());
    all.extend(damaged());
    all.extend(header_checksums());
    all.extend(trailers());
    all.extend(beyond_263_bytes());
    all.extend(single_refusals());
    all
}

fn on(channel: u8, frame: &[u8], name: &'static str, text: &'static str) -> BenchInput {
    BenchInput { name, bytes: [&[channel], frame].concat(), text }
}

fn channel_alone() -> [BenchInput; 4] {
    [
        on(0x00, &[], "one_byte_00", "refused 2\n"),
        on(0x01, &[], "one_byte_01", "refused 2\n"),
        on(0x02, &[], "one_byte_02", "refused 1\n"),
        on(0xFF, &[], "one_byte_ff", "refused 1\n"),
    ]
}

/// The shortest and the longest frame on their own channels, and one between them with other bytes than zeros.
fn accepted() -> [BenchInput; 5] {
    let plain = Draft::plain(A, NULL_FRAME_BIT, 1234, 64, 42);
    let middle = Draft { payload: (1..=128).collect(), ..plain };
    [
        on(0, &SHORT.bytes(A), "shortest_frame_on_a", "accepted 1 0 0\n"),
        on(1, &SHORT.bytes(B), "shortest_frame_on_b", "accepted 1 0 0\n"),
        on(0, &LONG.bytes(A), "longest_frame_on_a", "accepted 2047 63 127\n"),
        on(1, &LONG.bytes(B), "longest_frame_on_b", "accepted 2047 63 127\n"),
        on(0, &middle.bytes(), "middle_frame_on_a", "accepted 1234 42 64\n"),
    ]
}

fn other_channel() -> [BenchInput; 2] {
    [
        on(1, &SHORT.bytes(A), "shortest_frame_of_a_on_b", "refused 8 13655786 3920015\n"),
        on(0, &SHORT.bytes(B), "shortest_frame_of_b_on_a", "refused 8 3920015 13655786\n"),
    ]
}

/// Places in sending order: a bit of the ID, which becomes 3, and the first bit of the shortest frame's trailer.
const ID_BIT: usize = 14;
const TRAILER_BIT: usize = 40;

/// The last bit of the longest frame, which a program that keeps one input byte too few never sees.
const LAST_BIT: usize = 8 * LARGEST_FRAME - 1;

fn damaged() -> [BenchInput; 4] {
    let [id_bit, trailer_bit] = [ID_BIT, TRAILER_BIT].map(|place| flipped(SHORT.bytes(A), place));
    let [long_on_a, long_on_b] = [A, B].map(|channel| flipped(LONG.bytes(channel), LAST_BIT));
    [
        on(0, &id_bit, "shortest_frame_id_bit_flipped", "refused 4 1695 1397\n"),
        on(0, &trailer_bit, "shortest_frame_trailer_bit_flipped", "refused 8 5267178 13655786\n"),
        on(0, &long_on_a, "longest_frame_last_bit_flipped_on_a", "refused 8 3706823 3706822\n"),
        on(1, &long_on_b, "longest_frame_last_bit_flipped_on_b", "refused 8 5880560 5880561\n"),
    ]
}

fn flipped(mut frame: Vec<u8>, place: usize) -> Vec<u8> {
    bits::flip(&mut frame, place);
    frame
}

/// 02 C-18: header checksums of every length, found and expected, 0 among them. Each ID has the one that is expected.
fn header_checksums() -> [BenchInput; 8] {
    let with = |channel: Channel, id, found: u16, expected: u16| {
        let right = Draft::plain(channel, NULL_FRAME_BIT, id, 0, 0);
        Draft { header_checksum_change: found ^ expected, ..right }.bytes()
    };
    [
        on(0, &with(A, 1, 0, 1695), "header_checksum_0_for_1695", "refused 4 0 1695\n"),
        on(1, &with(B, 104, 1, 0), "header_checksum_1_for_0", "refused 4 1 0\n"),
        on(0, &with(A, 104, 2047, 0), "header_checksum_2047_for_0", "refused 4 2047 0\n"),
        on(1, &with(B, 1040, 9, 7), "header_checksum_9_for_7", "refused 4 9 7\n"),
        on(0, &with(A, 934, 10, 42), "header_checksum_10_for_42", "refused 4 10 42\n"),
        on(1, &with(B, 1577, 100, 999), "header_checksum_100_for_999", "refused 4 100 999\n"),
        on(0, &with(A, 205, 999, 1000), "header_checksum_999_for_1000", "refused 4 999 1000\n"),
        on(1, &with(B, 1587, 1000, 2047), "header_checksum_1000_for_2047", "refused 4 1000 2047\n"),
    ]
}

/// The same of trailers, behind four bytes of payload for which the expected one is right. The last line is as long as can
/// be.
fn trailers() -> [BenchInput; 10] {
    let with = |channel: Channel, payload: [u8; 4], found: u32, expected: u32| {
        let right = Draft { payload: payload.to_vec(), ..Draft::plain(channel, NULL_FRAME_BIT, 5, 2, 9) };
        Draft { frame_checksum_change: found ^ expected, ..right }.bytes()
    };
    let of_0 = with(A, [0, 0x4A, 0x7D, 0xA6], 16_777_215, 0);
    let of_7 = with(B, [0, 0xC7, 0x7A, 0xD4], 0, 7);
    let of_42 = with(A, [0, 0xB6, 0x7D, 0xDA], 9, 42);
    let of_999 = with(B, [0, 0xE7, 0xEA, 0x33], 10, 999);
    let of_1000 = with(A, [0, 0xEC, 0xCB, 0x20], 123, 1000);
    let of_65536 = with(B, [0, 0x74, 0x20, 0x43], 9999, 65_536);
    let of_123456 = with(A, [0, 0x9F, 0xB9, 0x9C], 10_000, 123_456);
    let of_9999999 = with(B, [0, 0x9E, 0x19, 0x9D], 100_000, 9_999_999);
    let of_10000000 = with(A, [0, 0x4C, 0x61, 0xA4], 1_000_000, 10_000_000);
    let of_16777215 = with(B, [0, 0x71, 0xBC, 0x4D], 10_000_000, 16_777_215);
    [
        on(0, &of_0, "trailer_16777215_for_0", "refused 8 16777215 0\n"),
        on(1, &of_7, "trailer_0_for_7", "refused 8 0 7\n"),
        on(0, &of_42, "trailer_9_for_42", "refused 8 9 42\n"),
        on(1, &of_999, "trailer_10_for_999", "refused 8 10 999\n"),
        on(0, &of_1000, "trailer_123_for_1000", "refused 8 123 1000\n"),
        on(1, &of_65536, "trailer_9999_for_65536", "refused 8 9999 65536\n"),
        on(0, &of_123456, "trailer_10000_for_123456", "refused 8 10000 123456\n"),
        on(1, &of_9999999, "trailer_100000_for_9999999", "refused 8 100000 9999999\n"),
        on(0, &of_10000000, "trailer_1000000_for_10000000", "refused 8 1000000 10000000\n"),
        on(1, &of_16777215, "trailer_10000000_for_16777215", "refused 8 10000000 16777215\n"),
    ]
}

/// A good frame stands at the front of each: on A and B a program that drops what is behind it would accept it.
fn beyond_263_bytes() -> [BenchInput; 5] {
    let many = LONG.sized(A, MANY_BYTES - 1);
    [
        on(0, &LONG.sized(A, LONGEST_INPUT), "longest_frame_and_one_byte_on_a", "refused 3\n"),
        on(1, &LONG.sized(B, LONGEST_INPUT), "longest_frame_and_one_byte_on_b", "refused 3\n"),
        on(0, &many, "longest_frame_in_5000_bytes_on_a", "refused 3\n"),
        on(2, &LONG.sized(A, LONGEST_INPUT), "channel_2_before_263_bytes", "refused 1\n"),
        on(255, &many, "channel_255_before_4999_bytes", "refused 1\n"),
    ]
}

/// Both checksums are right for the bytes, so that nothing before the refusal in 01's order has a cause.
fn single_refusals() -> [BenchInput; 4] {
    let good = Draft::plain(A, NULL_FRAME_BIT, 1, 0, 0);
    let odd_size = Draft { payload: vec![0], ..good.clone() };
    let more_than_words = Draft { payload: vec![0, 0], ..good.clone() };
    let id_0 = Draft { id: 0, ..good };
    let startup_without_sync = Draft::plain(A, 0b10100, 1, 0, 0);
    [
        on(0, &odd_size.bytes(), "odd_size", "refused 3\n"),
        on(0, &more_than_words.bytes(), "words_against_size", "refused 5\n"),
        on(0, &id_0.bytes(), "id_0", "refused 6\n"),
        on(0, &startup_without_sync.bytes(), "startup_without_sync", "refused 7\n"),
    ]
}

#[cfg(test)]
mod tests {
    use std::collections::BTreeSet;

    use super::*;
    use crate::bench;
    use crate::frame::SMALLEST_FRAME;

    #[test]
    fn the_program_gives_the_lines() {
        for input in all() {
            let line = bench::line(&bench::read(&input.bytes));
            assert_eq!(format!("{line}\n"), input.text, "{}", input.name);
        }
    }

    #[test]
    fn names_are_different() {
        let names: BTreeSet<&str> = all().iter().map(|input| input.name).collect();
        assert_eq!(names.len(), all().len());
    }

    #[test]
    fn both_kinds_of_line_and_every_refusal_occur() {
        let texts: BTreeSet<&str> = all().iter().map(|input| input.text).collect();
        assert!(texts.iter().any(|text| text.starts_with("accepted ")));
        for number in [1, 2, 3, 5, 6, 7] {
            assert!(texts.contains(format!("refused {number}\n").as_str()), "{number}");
        }
        for number in [4, 8] {
            assert!(texts.iter().any(|text| text.starts_with(&format!("refused {number} "))), "{number}");
        }
    }

    /// 02 C-18: 4 and 8 with numbers of every length in either place; no line has more than 28 bytes, and one has as many.
    #[test]
    fn numbers_of_every_length_occur() {
        let texts: Vec<&str> = all().iter().map(|input| input.text).collect();
        for (number, most) in [(4, 4), (8, 8)] {
            for place in [2, 3] {
                let of_number = texts.iter().filter(|text| text.starts_with(&format!("refused {number} ")));
                let lengths: BTreeSet<usize> =
                    of_number.map(|text| text.trim_end().split(' ').nth(place).unwrap().len()).collect();
                assert_eq!(lengths, (1..=most).collect(), "{number} at {place}");
            }
        }
        assert_eq!(texts.iter().map(|text| text.len()).max(), Some(28));
    }

    #[test]
    fn sizes_at_the_ends_occur() {
        let sizes: BTreeSet<usize> = all().iter().map(|input| input.bytes.len()).collect();
        for size in [0, 1, 1 + SMALLEST_FRAME, LONGEST_INPUT, LONGEST_INPUT + 1, MANY_BYTES] {
            assert!(sizes.contains(&size), "{size}");
        }
    }
}
