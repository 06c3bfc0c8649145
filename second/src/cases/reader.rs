//! The listed cases of the reader of the wire, subject by subject.

mod between;
mod borders;
mod both_checksums;
mod clean;
mod cuts;
mod damaged;
mod disturbed;
mod drift;
mod errors;
mod idle;
mod openings;
mod phases;
mod put_readers;
mod sizes;
mod soundness;
mod unlooked;

use super::listed_frames::hex;
use crate::answer::field_numbers;
use crate::channel::Channel;
use crate::draft::Draft;
use crate::listed_frames::ListedFrame;
use crate::plan::{Expected, Plan};
use crate::random::Random;
use crate::reader;
use crate::reader_numbers::ReaderNumbers;
use crate::script::{Command, MEMORY};

pub fn add(plan: &mut Plan, random: &mut Random) {
    // First, as it needs the reader of the start.
    openings::add(plan);
    phases::add(plan);
    clean::add(plan, random);
    errors::add(plan);
    borders::add(plan);
    idle::add(plan);
    sizes::add(plan, random);
    cuts::add(plan);
    disturbed::add(plan, random);
    drift::add(plan);
    damaged::add(plan, random);
    put_readers::add(plan);
    soundness::add(plan);
    unlooked::add(plan);
    between::add(plan, random);
    both_checksums::add(plan, random);
}

/// An opening that is taken.
fn open(plan: &mut Plan, channel: Channel) {
    plan.add(Command::OpenReader(channel.number()), Expected::line("reader 0"));
}

fn put(plan: &mut Plan, numbers: &ReaderNumbers) {
    plan.add(Command::PutReader(*numbers), Expected::line("reader put"));
}

fn show(plan: &mut Plan, numbers: &ReaderNumbers) {
    plan.add(Command::ShowReader, Expected::Reader(numbers.looked_at()));
}

/// A piece that tells this: 0 for a frame, and otherwise an error's number.
fn hear(plan: &mut Plan, samples: &[u8], told: &[u8]) {
    plan.add(Command::listen(samples), Expected::Told(told.to_vec()));
}

/// The same with a reader that was just opened.
fn open_and_hear(plan: &mut Plan, channel: Channel, samples: &[u8], told: &[u8]) {
    open(plan, channel);
    hear(plan, samples, told);
}

/// The line of a call that gives a frame, heard without disturbance: the end's low bit lies ten bits for each byte behind
/// the reference point, less one.
fn line_of(taken: usize, draft: &Draft) -> String {
    let bytes = draft.bytes();
    format!("heard 0 {taken} {} {} {} 0 0", 80 * bytes.len() - 8, field_numbers(&draft.fields()), hex(&bytes))
}

/// A frame that is known whole.
fn listed(frame: &ListedFrame, channel: Channel) -> Draft {
    let words = (frame.payload.len() / 2) as u8;
    Draft { payload: frame.payload.to_vec(), ..Draft::plain(channel, frame.flags, frame.id, words, frame.cycle) }
}

/// Where a reader is that was opened and heard these samples.
fn behind(channel: Channel, samples: &[u8]) -> ReaderNumbers {
    let mut reader = reader::open(channel.number()).expect("both channels can be listened to");
    let mut memory = [0; MEMORY];
    for sample in samples {
        reader.take(*sample, &mut memory);
    }
    ReaderNumbers::of(&reader)
}
