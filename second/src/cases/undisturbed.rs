//! Frame commands between two showings of a status: they are about no slot, and the status stays as it is.

use crate::channel::Channel;
use crate::faults::{faulty_bench, faulty_checksum, faulty_encode, faulty_read, faulty_write};
use crate::history::{demanded, play_opened, show, Happening, Sort};
use crate::plan::Plan;
use crate::random::Random;
use crate::refusal::{Refusal, ENCODE_ORDER, READ_ORDER, WRITE_ORDER};
use crate::scene::{Kind, Scene};
use crate::script::Command;

/// Makes a command in which each of the named refusals has a cause.
type Faulty = fn(&mut Random, &[Refusal]) -> Command;

pub fn add(plan: &mut Plan, random: &mut Random) {
    for channel in Channel::BOTH {
        for kind in Kind::BOTH {
            for arrival in Sort::ARRIVALS {
                let scene = Scene::fair(random, channel, kind);
                add_undisturbed(plan, random, &scene, arrival);
            }
        }
        add_every_answer(plan, random, channel, &READ_ORDER, faulty_bench);
        add_every_answer(plan, random, channel, &ENCODE_ORDER, faulty_encode);
        add_every_answer(plan, random, channel, &WRITE_ORDER, faulty_write);
    }
}

/// Opens a slot in which bytes arrive, and shows the same status again after accepted and after refused frame commands.
fn add_undisturbed(plan: &mut Plan, random: &mut Random, scene: &Scene, arrival: Sort) {
    let history = [Happening::any(random, scene, arrival)];
    let held = demanded(&scene.fresh(), &history);
    play_opened(plan, scene, &history);
    // The channel is the one cause that all five entries have.
    for faults in [&[][..], &[Refusal::Channel]] {
        add_frame_commands(plan, random, faults);
        show(plan, &held);
    }
}

fn add_frame_commands(plan: &mut Plan, random: &mut Random, faults: &[Refusal]) {
    let commands = [
        faulty_checksum(random, faults),
        faulty_read(random, faults),
        faulty_write(random, faults),
        faulty_bench(random, faults),
        faulty_encode(random, faults),
    ];
    commands.into_iter().for_each(|command| plan.add_faulty(command, faults));
}

/// Every answer of an entry that has frames, read like those that arrive in the slot or written.
fn add_every_answer(plan: &mut Plan, random: &mut Random, channel: Channel, order: &[Refusal], faulty: Faulty) {
    let scene = Scene::fair(random, channel, Kind::Static);
    let history = [Happening::any(random, &scene, Sort::Missing)];
    let held = demanded(&scene.fresh(), &history);
    play_opened(plan, &scene, &history);
    plan.add_faulty(faulty(random, &[]), &[]);
    show(plan, &held);
    for refusal in order {
        plan.add_faulty(faulty(random, &[*refusal]), &[*refusal]);
        show(plan, &held);
    }
}
