//! 02 C-18: statuses with checksums where they are measured. Behind a syntax error they change nothing, and without one the
//! status isn't sound.

use crate::cases::both_checksums::PAIRS;
use crate::channel::Channel;
use crate::checksum_pair::ChecksumPair;
use crate::clock::Times;
use crate::clock_history::{measure, open, put, refuse_measure, show};
use crate::clock_numbers::ClockNumbers;
use crate::clock_scene::{behind_syntax_error, late_settings, open_at, row_on, settings_with_static, sync_status};
use crate::history::{self, Happening};
use crate::plan::{Expected, Plan};
use crate::random::Random;
use crate::refusal::Refusal;
use crate::scene::{Kind, Scene};
use crate::script::Command;
use crate::status_numbers::StatusNumbers;

/// That of the slot in question, and its cycle.
const ID: u16 = 61;
const CYCLE: u8 = 26;

/// Without delays the deviation is 9.
const TIMES: Times = Times { observed: 509, action_point: 500 };

pub fn add(plan: &mut Plan, random: &mut Random) {
    for channel in Channel::BOTH {
        for pair in PAIRS {
            add_put(plan, random, channel, pair);
        }
        for refusal in [Refusal::HeaderChecksum, Refusal::FrameChecksum] {
            add_arrived(plan, random, channel, refusal);
        }
    }
}

fn nothing_listed() -> ClockNumbers {
    open_at(late_settings(0, [0, 0]), CYCLE, Default::default())
}

/// What a measurement leaves of it.
fn listed(channel: Channel) -> ClockNumbers {
    let mut held = nothing_listed();
    held.lists[0].count = 1;
    held.lists[0].rows[0] = row_on(ID, channel, 9);
    held
}

/// The same status three times: with these checksums alone, with "syntax error" as well, and with that alone.
fn add_put(plan: &mut Plan, random: &mut Random, channel: Channel, checksums: ChecksumPair) {
    let status = sync_status(random, channel, ID, CYCLE);
    put(plan, &nothing_listed());
    refuse_measure(plan, &nothing_listed(), &StatusNumbers { checksums, ..status }, Refusal::NotSound);
    for told in [checksums, ChecksumPair::NONE] {
        put(plan, &nothing_listed());
        measure(plan, &behind_syntax_error(status, told), TIMES, 9);
        show(plan, &listed(channel));
    }
}

/// A slot in which a frame can't be read, and a sync frame arrives behind it.
fn add_arrived(plan: &mut Plan, random: &mut Random, channel: Channel, refusal: Refusal) {
    let settings = settings_with_static(random, ID);
    let slot = Scene { settings, channel, slot: ID, cycle: CYCLE, kind: Kind::Static };
    let mut good = slot.good(random);
    good.indicators.sync = true;
    let refused = Happening::Refused(slot.refused(random, refusal));
    put(plan, &ClockNumbers { open: false, ..nothing_listed() });
    open(plan, CYCLE);
    history::play_opened(plan, &slot, &[refused, Happening::Good(good)]);
    plan.add(Command::Measure(TIMES), Expected::line("measure 0 9"));
    show(plan, &listed(channel));
}
