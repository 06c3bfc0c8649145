//! The tests (a) to (e) of 01 "Judging a slot", and the content reasons: a test that is missed, or (f) of 02 C-15.

/// What a frame is tested for.
#[derive(Clone, Copy, Debug, PartialEq, Eq, PartialOrd, Ord)]
pub enum Test {
    /// (a) ID equals slot.
    Id = 1,
    /// (b) Cycle equals cycle.
    Cycle = 2,
    /// (c) Static: words equal field 10.
    StaticWords = 3,
    /// (d) Dynamic: sync and startup clear.
    DynamicSync = 4,
    /// (e) Dynamic: not a null frame.
    DynamicNull = 5,
}

impl Test {
    /// The order in which a frame is tested.
    pub const IN_ORDER: [Test; 5] = [Test::Id, Test::Cycle, Test::StaticWords, Test::DynamicSync, Test::DynamicNull];
}

#[derive(Clone, Copy, Debug, PartialEq, Eq, PartialOrd, Ord)]
pub enum Reason {
    /// (a) to (e).
    Missed(Test),
    /// (f), which no test gives: a frame passes all of them behind another that did.
    SecondGoodFrame,
}

impl Reason {
    /// (a) to (f).
    pub const ALL: [Reason; 6] = {
        use Reason::{Missed, SecondGoodFrame};
        let [a, b, c, d, e] = Test::IN_ORDER;
        [Missed(a), Missed(b), Missed(c), Missed(d), Missed(e), SecondGoodFrame]
    };

    /// The reason that a script's number stands for; 0 stands for none.
    pub fn from_number(number: u8) -> Option<Reason> {
        Reason::ALL.into_iter().find(|reason| reason.number() == number)
    }

    pub fn number(self) -> u8 {
        match self {
            Reason::Missed(test) => test as u8,
            Reason::SecondGoodFrame => 6,
        }
    }
}

#[cfg(test)]
mod tests {
    use super::*;

    #[test]
    fn numbers_go_there_and_back() {
        assert_eq!(Reason::ALL.map(Reason::number), [1, 2, 3, 4, 5, 6]);
        assert_eq!(Reason::ALL.map(|reason| Reason::from_number(reason.number())), Reason::ALL.map(Some));
        assert_eq!([0, 7].map(Reason::from_number), [None, None]);
    }
}
