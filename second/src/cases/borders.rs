//! Static and dynamic slots at the border of field 11, and the words of frames against field 10.

use crate::channel::Channel;
use crate::draft::Draft;
use crate::faults::other_words;
use crate::frame::{Indicators, HIGHEST_ID, MOST_WORDS};
use crate::history::{play_opened, Happening};
use crate::plan::Plan;
use crate::random::Random;
use crate::reason::Test;
use crate::scene::{Kind, Scene};
use crate::settings::{FEWEST_STATIC_SLOTS, MOST_STATIC_SLOTS, STATIC_SLOTS, STATIC_WORDS};

/// The values of field 11 at whose border slots are judged: the ends of its range, those beside them and one between.
pub const BORDERS: [u16; 5] = [FEWEST, FEWEST + 1, 500, MOST - 1, MOST];

const FEWEST: u16 = FEWEST_STATIC_SLOTS as u16;
const MOST: u16 = MOST_STATIC_SLOTS as u16;

/// All ways in which null frame, sync and startup bit can stand, a read refusing startup without sync.
pub const LOOKS: [u8; 6] = [0b00000, 0b00100, 0b01000, 0b01100, 0b11000, 0b11100];

pub fn add(plan: &mut Plan, random: &mut Random) {
    for channel in Channel::BOTH {
        for last_static in BORDERS {
            add_looks(plan, random, channel, last_static, last_static - 1, Kind::Static);
            add_looks(plan, random, channel, last_static, last_static, Kind::Static);
            add_looks(plan, random, channel, last_static, last_static + 1, Kind::Dynamic);
        }
        add_looks(plan, random, channel, MOST, 1, Kind::Static);
        add_looks(plan, random, channel, FEWEST, HIGHEST_ID, Kind::Dynamic);
        add_looks(plan, random, channel, MOST, HIGHEST_ID, Kind::Dynamic);
        for kind in Kind::BOTH {
            add_words(plan, random, channel, kind);
        }
    }
}

fn add_looks(plan: &mut Plan, random: &mut Random, channel: Channel, last_static: u16, slot: u16, kind: Kind) {
    for look in LOOKS {
        for equal in [true, false] {
            let fair = Scene::fair(random, channel, kind);
            let settings = fair.settings.with_field(STATIC_SLOTS, last_static.into());
            let scene = Scene { settings, slot, ..fair };
            let field_10 = settings.field(STATIC_WORDS) as u8;
            let words = if equal { field_10 } else { other_words(random, field_10) };
            let draft = looking(scene.good(random), look).with_words(random, words);
            play_opened(plan, &scene, &[by_look(draft, kind, equal)]);
        }
    }
}

fn looking(good: Draft, look: u8) -> Draft {
    let Indicators { reserved, preamble, .. } = good.indicators;
    Draft { indicators: Indicators { reserved, preamble, ..Indicators::from_flags(look) }, ..good }
}

/// Only the words count in a static slot, only the three bits in a dynamic one.
fn by_look(draft: Draft, kind: Kind, equal_words: bool) -> Happening {
    let bits = draft.indicators;
    match kind {
        Kind::Static if !equal_words => Happening::Missing(Test::StaticWords, draft),
        Kind::Dynamic if bits.sync || bits.startup => Happening::Missing(Test::DynamicSync, draft),
        Kind::Dynamic if !bits.null_frame => Happening::Missing(Test::DynamicNull, draft),
        _ => Happening::Good(draft),
    }
}

fn add_words(plan: &mut Plan, random: &mut Random, channel: Channel, kind: Kind) {
    for field_10 in [0, 1, 64, MOST_WORDS - 1, MOST_WORDS] {
        for words in [0, 1, 2, 63, 64, 65, MOST_WORDS - 1, MOST_WORDS] {
            let fair = Scene::fair(random, channel, kind);
            let scene = Scene { settings: fair.settings.with_field(STATIC_WORDS, field_10.into()), ..fair };
            let draft = scene.good(random).with_words(random, words);
            let happening = match kind {
                Kind::Static if words != field_10 => Happening::Missing(Test::StaticWords, draft),
                _ => Happening::Good(draft),
            };
            play_opened(plan, &scene, &[happening]);
        }
    }
}
