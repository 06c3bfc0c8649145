//! Midpoint, damping and limit by 01 "Clock". All in i64, where nothing of this can overflow.

/// A term found from at least one value.
#[derive(Clone, Debug, PartialEq, Eq)]
pub struct Found {
    pub values: Vec<i64>,
    /// For the rate: the midpoint plus the stored rate, before damping.
    pub undamped: i64,
    /// 0 for the offset, which isn't damped.
    pub damping: i64,
    pub term: i64,
    pub limit: i64,
}

impl Found {
    /// The midpoint as it is.
    pub fn offset(values: Vec<i64>, limit: i64) -> Found {
        let term = midpoint(&values);
        Found { values, undamped: term, damping: 0, term, limit }
    }

    /// The midpoint plus the stored rate, damped.
    pub fn rate(values: Vec<i64>, stored: i64, damping: i64, limit: i64) -> Found {
        let undamped = midpoint(&values) + stored;
        Found { values, undamped, damping, term: damped(undamped, damping), limit }
    }

    pub fn within_limit(&self) -> i64 {
        self.term.clamp(-self.limit, self.limit)
    }

    pub fn is_limited(&self) -> bool {
        self.within_limit() != self.term
    }

    /// What the term would be if so many values were discarded at each end, where that leaves any.
    pub fn if_discarded(&self, ends: usize) -> Option<i64> {
        if self.values.len() <= 2 * ends {
            return None;
        }
        let difference = halved(sum_of_left(&self.values, ends)) - midpoint(&self.values);
        let term = damped(self.undamped + difference, self.damping);
        Some(term.clamp(-self.limit, self.limit))
    }
}

/// How many of n values are discarded at each end.
fn discarded(n: usize) -> usize {
    match n {
        0..=2 => 0,
        3..=7 => 1,
        _ => 2,
    }
}

pub fn midpoint(values: &[i64]) -> i64 {
    halved(sum_of_ends(values))
}

/// The sum of the smallest and largest value left, which are one if there is only one.
pub fn sum_of_ends(values: &[i64]) -> i64 {
    sum_of_left(values, discarded(values.len()))
}

fn sum_of_left(values: &[i64], ends: usize) -> i64 {
    let mut sorted = values.to_vec();
    sorted.sort_unstable();
    let left = &sorted[ends..sorted.len() - ends];
    left[0] + left[left.len() - 1]
}

/// Division drops the fraction toward zero, as 01 asks for; a shift would not.
pub fn halved(sum: i64) -> i64 {
    sum / 2
}

/// Nearer to 0 by d, and 0 where that would go beyond it.
fn damped(x: i64, d: i64) -> i64 {
    x.signum() * (x.abs() - d).max(0)
}

#[cfg(test)]
mod tests {
    use super::*;

    #[test]
    fn terms_with_others_discarded() {
        let found = Found::offset(vec![1, 2, 4, 8, 16], 11);
        assert_eq!([0, 1, 2, 3].map(|ends| found.if_discarded(ends)), [Some(8), Some(5), Some(4), None]);
        let found = Found::rate(vec![-1, 2, 40], 10, 2, 11);
        assert_eq!([0, 1, 2].map(|ends| found.if_discarded(ends)), [Some(11), Some(10), None]);
    }
}
