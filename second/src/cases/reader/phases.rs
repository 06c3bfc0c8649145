//! A short frame, stopped in every phase: where the reader is there was worked out by hand.

use super::{hear, open, show};
use crate::channel::Channel;
use crate::plan::Plan;
use crate::reader_numbers::{
    ReaderNumbers, BYTE, BYTE_START_HIGH, BYTE_START_LOW, END_HIGH, END_LOW, FRAME_START, START, WAITING,
};
use crate::samples;

/// Behind a low bit, which was strobed with the last sample.
pub(super) const LOW: ReaderNumbers = ReaderNumbers {
    channel: Channel::A,
    samples: 0,
    seen: 4,
    voted: false,
    counter: 6,
    realigns: false,
    timer: 0,
    phase: WAITING,
    number: 0,
    value: 0,
    count: 0,
    since: 0,
};

/// Behind a high one, the bit before it being low.
const HIGH: ReaderNumbers = ReaderNumbers { samples: 15, voted: true, realigns: true, timer: 8, ..LOW };

/// 20 01 01 A7 C0 behind eleven idle bits and three start bits: bit b, the idle ones counted, is strobed at sample 8 b + 6.
/// The samples heard, and the reader behind them.
const STOPS: [(usize, ReaderNumbers); 15] = [
    (3, ReaderNumbers { samples: 7, seen: 3, counter: 1, ..LOW }),
    (8, ReaderNumbers { samples: 15, voted: true, counter: 5, timer: 4, ..LOW }),
    (9, ReaderNumbers { timer: 5, ..HIGH }),
    // The edge is two samples late, and the counter stands at 2 behind it.
    (90, ReaderNumbers { samples: 12, voted: true, counter: 7, timer: 86, realigns: true, ..LOW }),
    (91, ReaderNumbers { samples: 8, counter: 2, timer: 87, ..LOW }),
    (95, ReaderNumbers { phase: START, number: 1, ..LOW }),
    (111, ReaderNumbers { phase: START, number: 3, ..LOW }),
    (119, ReaderNumbers { phase: FRAME_START, number: 1, ..HIGH }),
    (127, ReaderNumbers { phase: FRAME_START, number: 2, timer: 16, ..HIGH }),
    (135, ReaderNumbers { phase: BYTE, ..LOW }),
    // The third bit of the first byte is high, and doesn't enable realignment.
    (159, ReaderNumbers { phase: BYTE, number: 3, value: 1, since: 24, realigns: false, ..HIGH }),
    (191, ReaderNumbers { phase: BYTE, number: 7, value: 16, since: 56, ..LOW }),
    (199, ReaderNumbers { phase: BYTE_START_HIGH, count: 1, since: 64, ..LOW }),
    (207, ReaderNumbers { phase: BYTE_START_LOW, count: 1, since: 72, ..HIGH }),
    (215, ReaderNumbers { phase: BYTE, count: 1, since: 80, ..LOW }),
];

/// The last byte is EA on A and 8F on B: there its last four bits are high.
const LAST_STOPS: [(usize, [ReaderNumbers; 2]); 3] = {
    let all_bytes = ReaderNumbers { phase: END_LOW, count: 8, since: 624, ..LOW };
    let on_b = ReaderNumbers { samples: 15, voted: true, timer: 32, ..all_bytes };
    let given = ReaderNumbers { phase: END_HIGH, ..LOW };
    [(759, [all_bytes, on_b]), (767, [given; 2]), (775, [HIGH; 2])]
};

pub fn add(plan: &mut Plan) {
    for channel in Channel::BOTH {
        let stream = samples::short_stream(channel);
        let last = LAST_STOPS.map(|(heard, numbers)| (heard, numbers[usize::from(channel.number())]));
        let mut before = 0;
        open(plan, channel);
        for (heard, numbers) in STOPS.into_iter().chain(last) {
            let told = if heard == 767 { vec![0] } else { vec![] };
            hear(plan, &stream[before..heard], &told);
            show(plan, &ReaderNumbers { channel, ..numbers });
            before = heard;
        }
    }
}
