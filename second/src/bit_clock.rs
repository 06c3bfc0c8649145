//! Voting and the bit clock of the wire reader (02 C-13; 002, sections 3.2.2 and 3.2.3), one sample at a time.

/// How many samples are remembered: with the one that comes they are the five that vote.
pub const REMEMBERED: u8 = 4;

/// A majority of five.
const VOTES: u32 = 3;

pub const SAMPLES_PER_BIT: u8 = 8;

/// Where the counter stands when a bit is strobed.
const STROBE: u8 = 5;

/// The lowest bits of a number, as many as samples are remembered.
pub const NAMED_SAMPLES: u8 = 0b1111;

/// The default one is all zeros, which isn't sound.
#[derive(Clone, Copy, Debug, Default, PartialEq, Eq)]
pub struct BitClock {
    /// The last ones as a number of four bits, the oldest highest; those that have not come are low.
    pub samples: u8,
    /// How many of them have come.
    pub seen: u8,
    /// The last voted value.
    pub voted: bool,
    /// Where it stands at the next voted value.
    pub counter: u8,
    pub realigns: bool,
}

/// What one sample comes to.
#[derive(Clone, Copy, Debug, PartialEq, Eq)]
pub enum Tick {
    /// One of the first four.
    Unvoted,
    Voted,
    /// Voted, and the next bit of the wire.
    Strobe(bool),
}

impl BitClock {
    /// That of a reader that was just opened.
    pub fn fresh() -> BitClock {
        BitClock { counter: 1, ..BitClock::default() }
    }

    pub fn take(&mut self, high: bool) -> Tick {
        let five = self.samples << 1 | u8::from(high);
        self.samples = five & NAMED_SAMPLES;
        if self.seen < REMEMBERED {
            self.seen += 1;
            return Tick::Unvoted;
        }
        let before = self.voted;
        self.voted = five.count_ones() >= VOTES;
        if self.realigns && before && !self.voted {
            return self.realign();
        }
        self.count()
    }

    /// A falling edge counts as 1, whatever the counter said, and strobes nothing.
    fn realign(&mut self) -> Tick {
        self.counter = 2;
        self.realigns = false;
        Tick::Voted
    }

    fn count(&mut self) -> Tick {
        let now = self.counter;
        self.counter = now % SAMPLES_PER_BIT + 1;
        if now == STROBE {
            return Tick::Strobe(self.voted);
        }
        Tick::Voted
    }

    /// The first clause of a reader's soundness.
    pub fn is_sound(&self) -> bool {
        let counts = self.seen <= REMEMBERED && (1..=SAMPLES_PER_BIT).contains(&self.counter);
        counts && (self.votes() || self.has_not_begun())
    }

    /// Whether the next sample has a voted value.
    pub fn votes(&self) -> bool {
        self.seen >= REMEMBERED
    }

    fn has_not_begun(&self) -> bool {
        let not_come_are_low = self.samples >> self.seen == 0;
        not_come_are_low && !self.voted && self.counter == 1 && !self.realigns
    }
}

#[cfg(test)]
mod tests {
    use super::*;

    /// Plays samples, written as digits, and says where bits were strobed, and which.
    fn strobes(clock: &mut BitClock, samples: &str) -> Vec<(usize, bool)> {
        let ticks = samples.chars().map(|digit| clock.take(digit == '1'));
        let strobed = ticks.enumerate().filter_map(|(place, tick)| match tick {
            Tick::Strobe(bit) => Some((place, bit)),
            _ => None,
        });
        strobed.collect()
    }

    #[test]
    fn the_first_four_samples_do_nothing_but_come() {
        let mut clock = BitClock::fresh();
        for (seen, samples) in [(1, 1), (2, 0b11), (3, 0b110), (4, 0b1101)] {
            assert_eq!(clock.take(samples & 1 == 1), Tick::Unvoted);
            assert_eq!(clock, BitClock { seen, samples, ..BitClock::fresh() });
        }
        assert_eq!(clock.take(false), Tick::Voted);
        assert_eq!(clock, BitClock { samples: 0b1010, seen: 4, voted: true, counter: 2, realigns: false });
    }

    /// The fifth sample has the first voted value, and the fifth of those is strobed.
    #[test]
    fn every_eighth_voted_value_is_strobed() {
        let mut clock = BitClock::fresh();
        assert_eq!(strobes(&mut clock, &"1".repeat(25)), [(8, true), (16, true), (24, true)]);
        assert_eq!(clock.counter, 6);
    }

    /// An edge is voted two samples late, and the strobe comes four behind that.
    #[test]
    fn a_falling_edge_realigns_where_it_may() {
        let samples = "1".repeat(16) + &"0".repeat(16);
        let mut clock = BitClock::fresh();
        assert_eq!(strobes(&mut clock, &samples), [(8, true), (16, true), (24, false)]);
        let mut clock = BitClock { realigns: true, ..BitClock::fresh() };
        // The strobe of sample 16 is voted before the edge is.
        assert_eq!(strobes(&mut clock, &samples), [(8, true), (16, true), (22, false), (30, false)]);
        assert!(!clock.realigns);
    }

    /// Where the counter stands at 5 the edge comes first.
    #[test]
    fn an_edge_strobes_nothing() {
        let mut clock = BitClock { samples: 0b1100, seen: 4, voted: true, counter: 5, realigns: true };
        assert_eq!(clock.take(false), Tick::Voted);
        assert_eq!(clock, BitClock { samples: 0b1000, seen: 4, voted: false, counter: 2, realigns: false });
    }

    #[test]
    fn three_of_five_are_a_majority() {
        for five in 0..32u8 {
            let mut clock = BitClock { samples: five >> 1, seen: 4, counter: 5, ..BitClock::default() };
            let high = [five & 16, five & 8, five & 4, five & 2, five & 1].iter().filter(|bit| **bit > 0).count() >= 3;
            assert_eq!(clock.take(five & 1 == 1), Tick::Strobe(high));
        }
    }
}
