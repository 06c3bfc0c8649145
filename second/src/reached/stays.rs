//! States that stay as they are beside commands that are not about them, and where a state comes from.

use super::choices::any;
use super::{causes, Reached};
use crate::marks::Mark;
use crate::refusal::Refusal;

/// What a command is about, and leaves a new state of.
#[derive(Clone, Copy, Debug, PartialEq, Eq)]
pub(super) enum Subject {
    Status,
    Clock,
    Reader,
}

impl Subject {
    const ALL: [Subject; 3] = [Subject::Status, Subject::Clock, Subject::Reader];

    pub(super) fn of(letter: char) -> Option<Subject> {
        match letter {
            'S' | 'A' | 'B' | 'X' | 'T' => Some(Subject::Status),
            'L' | 'O' | 'M' | 'C' | 'K' => Some(Subject::Clock),
            'H' | 'Y' | 'V' => Some(Subject::Reader),
            _ => None,
        }
    }
}

/// Where a state that is held comes from; those of the start and of a refusal are all zeros.
#[derive(Clone, Copy, Debug, Default, PartialEq, Eq)]
pub(super) enum Origin {
    #[default]
    Start,
    /// A slot or a reader that was opened, settings that were loaded.
    Opened,
    Refused(Refusal),
    Put,
}

impl Reached {
    /// A state that was lost would have nothing in it, so that without anything in it the showing proves nothing.
    pub(super) fn add_stayed(&mut self, letter: char, number: u8) {
        let marks = self.held.status.marks.number();
        let in_lists = self.held.clock.lists.iter().any(|list| list.count() > 0);
        let has_some = [marks != 0, in_lists, self.held.reader.decoder.phase.has_bytes()];
        for (subject, has_some) in Subject::ALL.into_iter().zip(has_some) {
            if has_some && Subject::of(letter) != Some(subject) {
                self.unshown[subject as usize].push(format!("{subject:?} stays beside {letter} {number}"));
            }
        }
        if Subject::of(letter).is_none() {
            let accepted = number == 0;
            self.unshown[0].push(format!("marks {marks} stay beside {letter}, accepted: {accepted}"));
        }
    }

    /// The letter of an entry that was refused for its state.
    pub(super) fn add_zeros(&mut self, letter: char) {
        let origin = match Subject::of(letter) {
            Some(Subject::Status) => self.status_from,
            Some(Subject::Reader) => self.reader_from,
            _ => self.clock_from,
        };
        if matches!(origin, Origin::Start | Origin::Refused(_)) {
            self.add_of(letter, format!("{letter} on zeros of {origin:?}"));
        }
    }
}

/// Every answer is given while a state is held that it isn't about. Nothing goes on with zeros: no event, no
/// entry of the clock and no listening.
pub(super) fn required() -> Vec<String> {
    let marks = any([Mark::SyntaxError, Mark::ContentError, Mark::Valid].map(Mark::bit));
    let mut all = vec![format!("marks <{marks}> stay beside <F|R|W|P|E>, accepted: <false|true>")];
    all.push(
        "<A|B|X> on zeros of <Start|Refused(Setting)|Refused(Channel)|Refused(IdGiven)|Refused(Cycle)>".to_string(),
    );
    all.push("<O|M|C> on zeros of <Start|Refused(Setting)>".to_string());
    all.push("Y on zeros of <Start|Refused(Channel)>".to_string());
    for subject in Subject::ALL {
        let beside = causes::answers().into_iter().filter(|(letter, _)| Subject::of(*letter) != Some(subject));
        all.extend(beside.map(|(letter, number)| format!("{subject:?} stays beside {letter} {number}")));
    }
    all
}
