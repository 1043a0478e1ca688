//! Clocks: one number per desk, merged and compared number by number.

use crate::DESKS;

/// Eight numbers, one per desk; those past the desk count are 0.
#[repr(C)]
#[derive(Clone, Copy, Debug, Default, PartialEq, Eq)]
pub struct Clock {
    /// The numbers, by desk.
    pub n: [u32; DESKS],
}

impl Clock {
    /// The clock of a fresh desk.
    pub const ZERO: Clock = Clock { n: [0; DESKS] };

    /// The larger of each pair of numbers.
    #[must_use]
    pub fn merge(&self, other: &Clock) -> Clock {
        Clock {
            n: std::array::from_fn(|i| self.n[i].max(other.n[i])),
        }
    }

    /// Strictly before: nowhere larger and somewhere smaller.
    #[must_use]
    pub fn is_before(&self, other: &Clock) -> bool {
        // No early exit: eight lanes at once are cheaper than a branch on each.
        let nowhere_larger = (0..DESKS).fold(true, |so_far, i| so_far & (self.n[i] <= other.n[i]));
        nowhere_larger && self != other
    }

    /// As a stamp: nobody wrote the word beside it. That alone is blank, whatever the word is.
    #[must_use]
    pub fn is_blank(&self) -> bool {
        *self == Clock::ZERO
    }

    /// As a stamp: whether this word may stand beside it. What is blank has word 0.
    #[must_use]
    pub fn may_stamp(&self, word: u32) -> bool {
        word == 0 || !self.is_blank()
    }

    /// No number past the desk count is other than 0.
    #[must_use]
    pub fn fits(&self, desks: usize) -> bool {
        self.n.iter().skip(desks).all(|&number| number == 0)
    }
}
