//! 02 C-15: the frames of a slot in their order with the reason that they give, and what reason (f) meets.

use super::choices::any;
use super::Reached;
use crate::answer::Answer;
use crate::closing::Closing;
use crate::frame::Fields;
use crate::history::{first_reason, Tested};
use crate::marks::Mark;
use crate::reason::Reason;
use crate::scene::Kind;
use crate::slot::SlotStatus;

/// The reasons (a) to (e) as choices.
pub(super) const MISSED: &str = "Missed(Id)|Missed(Cycle)|Missed(StaticWords)|Missed(DynamicSync)|Missed(DynamicNull)";

/// Longer rows of frames are not told apart.
const MOST_FRAMES: usize = 3;

/// The frames of a slot since it was opened, or since its status was put.
#[derive(Default)]
pub(super) struct Frames {
    /// The reason that was put.
    reason: Option<Reason>,
    /// All that could be read; one that was put as the kept one is the first.
    tested: Vec<Tested>,
    /// The good ones among them. Of one that was put no bytes are known.
    good: Vec<GoodFrame>,
}

struct GoodFrame {
    fields: Fields,
    bytes: Vec<u8>,
}

impl Frames {
    pub(super) fn put_with(status: &SlotStatus) -> Frames {
        let kept = status.kept.map(|fields| GoodFrame { fields, bytes: Vec::new() });
        let tested = kept.iter().map(|_| Tested::Good).collect();
        Frames { reason: status.reason, tested, good: kept.into_iter().collect() }
    }
}

fn likeness(first: &GoodFrame, later: &GoodFrame) -> &'static str {
    if later.bytes == first.bytes {
        return "the same bytes";
    }
    if later.fields == first.fields {
        return "the same header";
    }
    "another header"
}

impl Reached {
    fn has_f(&self) -> bool {
        self.held.status.reason == Some(Reason::SecondGoodFrame)
    }

    /// The slot that is held.
    fn slot(&self) -> String {
        format!("{:?} on {:?}", Kind::of(&self.held.status), self.held.status.channel)
    }

    /// A frame that arrived and could be read.
    pub(super) fn add_frame(&mut self, fields: Fields, bytes: &[u8], tested: Tested) {
        self.frames.tested.push(tested);
        if tested != Tested::Good {
            return;
        }
        let (origin, slot, later) = (self.status_from, self.slot(), GoodFrame { fields, bytes: bytes.to_vec() });
        if let Some(first) = self.frames.good.first() {
            let (place, like) = (self.frames.good.len() + 1, likeness(first, &later));
            self.add_of('A', format!("{origin:?} {slot}: good frame {place} has {like}"));
        }
        self.frames.good.push(later);
    }

    /// All frames together tell the reason and the kept frame otherwise than the judge comes by them, and both must say
    /// the same.
    pub(super) fn add_shown_frames(&mut self) {
        let (frames, status, slot) = (&self.frames, &self.held.status, self.slot());
        let (origin, put, reason) = (self.status_from, frames.reason, status.reason);
        let text = format!("{origin:?} with {put:?}, {slot}: {:?} gives {reason:?}", frames.tested);
        let first = frames.good.first().map(|good| good.fields);
        if reason != put.or(first_reason(&frames.tested)) || status.kept != first {
            self.impossible.push(format!("{text}, kept: {:?}", status.kept));
        }
        if frames.tested.len() <= MOST_FRAMES {
            self.add(text);
        }
        if self.has_f() {
            self.add(format!("{origin:?} {slot}: marks {} with (f)", self.held.status.marks.number()));
        }
    }

    /// An event that finds (f), in a sound status or not.
    pub(super) fn add_event_on_f(&mut self, letter: char, answer: &Answer) {
        if !self.has_f() {
            return;
        }
        let (status, kind, number) = (&self.held.status, Kind::of(&self.held.status), answer.number());
        let [content_error, valid, sent, conflict] =
            [Mark::ContentError, Mark::Valid, Mark::OwnSending, Mark::Conflict].map(|mark| status.marks.has(mark));
        let frame = format!("content error: {content_error}, valid: {valid}, kept: {}", status.kept.is_some());
        let text = format!("{letter} on {kind:?} (f), {frame}, sent: {sent}, conflict: {conflict}: {number}");
        self.add_of(letter, text);
    }

    /// Whether the kept frame and the last good one are sync frames.
    pub(super) fn add_measure_of_f(&mut self, answer: &Answer) {
        if !self.has_f() {
            return;
        }
        let (origin, channel, number) = (self.status_from, self.held.status.channel, answer.number());
        let good = &self.frames.good;
        let [kept, last] = [good.first(), good.last()].map(|good| good.is_some_and(|good| good.fields.indicators.sync));
        let measured = format!("{origin:?} on {channel:?}: (f) measured, sync kept: {kept}, last: {last}");
        self.add_of('M', format!("{measured}: {number}"));
        if number == 0 {
            self.measured_with_f.push(measured);
        }
    }

    /// A cycle whose terms come of one such measurement alone; a rate also of one in the cycle before.
    pub(super) fn add_closed_with_f(&mut self, closing: &Closing) {
        let ([measured], [_]) = (&self.measured_with_f[..], &closing.deviations.concat()[..]) else {
            return;
        };
        let cycle = match (closing.cycle % 2, &closing.rate) {
            (0, _) => "even",
            (_, None) => "odd without a rate",
            (_, Some(_)) => "odd with a rate",
        };
        self.add_of('C', format!("{measured}, closed alone, {cycle}"));
    }
}

pub(super) fn required() -> Vec<String> {
    let all = [
        "Opened <Static|Dynamic> on <A|B>: good frame <2|3> has <the same bytes|the same header|another header>",
        "Put <Static|Dynamic> on <A|B>: good frame 2 has <the same header|another header>",
        "Opened <Static|Dynamic> on <A|B>: marks <18|19|22|23|58|59|62|63> with (f)",
        "Opened on <A|B>: (f) measured, sync kept: true, last: <false|true>: 0",
        "Opened on <A|B>: (f) measured, sync kept: false, last: <false|true>: 20",
        "Put on <A|B>: (f) measured, sync kept: <true, last: false: 0|false, last: false: 20>",
        "Put on <A|B>: (f) measured, sync kept: <true, last: true: 23|false, last: false: 23>",
        "Opened on <A|B>: (f) measured, sync kept: true, last: <false|true>, closed alone, <even|odd with a rate>",
        "Put on <A|B>: (f) measured, sync kept: true, last: false, closed alone, <even|odd with a rate>",
    ];
    let events = EVENTS_ON_F.map(|status| format!("<A|B|X> on <Static|Dynamic> (f), {status}"));
    all.map(str::to_string).into_iter().chain(events).chain(Kind::BOTH.into_iter().flat_map(of_kind)).collect()
}

/// Accepted just where (f) stands with "content error", with "valid" and a kept frame, and "conflict" with own sending.
const EVENTS_ON_F: [&str; 5] = [
    "content error: true, valid: true, kept: true, sent: <false, conflict: false|true, conflict: true>: 0",
    "content error: true, valid: true, kept: true, sent: <false, conflict: true|true, conflict: false>: 23",
    "content error: true, valid: true, kept: false, sent: <false|true>, conflict: <false|true>: 23",
    "content error: true, valid: false, kept: <false|true>, sent: <false|true>, conflict: <false|true>: 23",
    "content error: false, valid: <false|true>, kept: <false|true>, sent: <false|true>, conflict: <false|true>: 23",
];

/// The reason that frames in this order must give, behind an opening or behind a status that was put.
fn of_kind(kind: Kind) -> Vec<String> {
    const F: &str = "Some(SecondGoodFrame)";
    let misses = any(kind.tests().iter().map(|test| format!("Missed({test:?})")));
    let slot = format!("{kind:?} on <A|B>");
    let mut all = vec![
        format!("Opened with None, {slot}: [Good] gives None"),
        format!("<Opened|Put> with None, {slot}: [Good, <Good|Good, Good>] gives {F}"),
        format!("<Opened|Put> with None, {slot}: [Good, Good, <{misses}>] gives {F}"),
        format!("Put with {F}, {slot}: [Good, <Good|{misses}>] gives {F}"),
    ];
    for test in kind.tests() {
        let missed = format!("Missed({test:?})");
        all.push(format!("Opened with None, {slot}: [<{missed}, Good|Good, {missed}>, Good] gives Some({missed})"));
    }
    all
}
