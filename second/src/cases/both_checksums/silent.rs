//! Refusals that tell no checksums, though one is wrong as well, and 4, which tells the header's whatever else is wrong.

use super::add_refused;
use crate::channel::Channel;
use crate::checksum_pair::ChecksumPair;
use crate::draft::{Draft, FOREIGN_CHANNELS};
use crate::frame::{Indicators, LARGEST_PAYLOAD};
use crate::plan::Plan;
use crate::random::Random;
use crate::script::OnChannel;

pub(super) fn add(plan: &mut Plan, random: &mut Random) {
    for channel in Channel::BOTH {
        let fair = Draft::fair(random, channel, 1);
        let trailer = Draft { frame_checksum_change: 0x30_0001, ..fair.clone() };
        let header = Draft { header_checksum_change: 0x105, ..fair };
        let both = Draft { header_checksum_change: 0x105, ..trailer.clone() };
        for wrong in [&header, &trailer, &both] {
            add_before_4(plan, wrong);
        }
        add_between(plan, &trailer);
        add_4(plan, &both);
    }
}

fn add_silent(plan: &mut Plan, channel: u8, bytes: Vec<u8>, number: u8) {
    add_refused(plan, &OnChannel { channel, bytes }, number, ChecksumPair::NONE);
}

/// 1, 2 and 3 of a frame with a wrong checksum, or with two.
fn add_before_4(plan: &mut Plan, wrong: &Draft) {
    let channel = wrong.channel.number();
    for foreign in FOREIGN_CHANNELS {
        add_silent(plan, foreign, wrong.bytes(), 1);
    }
    for size in [0, 5, 7] {
        add_silent(plan, channel, wrong.bytes()[..size].to_vec(), 2);
    }
    for size in [1, 3, LARGEST_PAYLOAD + 1, LARGEST_PAYLOAD + 2] {
        let misfit = Draft { payload: vec![0x5A; size], ..wrong.clone() };
        add_silent(plan, channel, misfit.bytes(), 3);
    }
}

/// 5, 6 and 7 of a frame with a wrong trailer.
fn add_between(plan: &mut Plan, wrong: &Draft) {
    let channel = wrong.channel.number();
    let startup = Indicators { sync: false, startup: true, ..wrong.indicators };
    let cases = [
        (Draft { words: 0, ..wrong.clone() }, 5),
        (Draft { words: 2, ..wrong.clone() }, 5),
        (Draft { id: 0, ..wrong.clone() }, 6),
        (Draft { indicators: startup, ..wrong.clone() }, 7),
    ];
    for (draft, number) in cases {
        add_silent(plan, channel, draft.bytes(), number);
    }
}

/// Of a frame whose trailer is wrong as well, and with other words, ID 0 or startup without sync in it.
fn add_4(plan: &mut Plan, both: &Draft) {
    let startup = Indicators { sync: false, startup: true, ..both.indicators };
    let wrong = [
        both.clone(),
        Draft { words: 9, ..both.clone() },
        Draft { id: 0, ..both.clone() },
        Draft { indicators: startup, ..both.clone() },
    ];
    for draft in wrong {
        add_refused(plan, &draft.on_channel(), 4, draft.header_checksums());
    }
}
