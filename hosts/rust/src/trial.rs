//! What a trial of settings answers (`docs/SCOPE.md`, "Trial").

use crate::sys;
use core::fmt;

/// One task's row in a [`Trial`]: how many of its bids were answered in which way. Those answered `Finished` stand in no row.
///
/// It prints as `4 granted, 1 busy, 0 held, 0 share spent`.
#[derive(Clone, Copy, Debug, Default, PartialEq, Eq, Hash)]
pub struct Tally {
    /// Bids answered [`BidAnswer::Granted`](crate::BidAnswer::Granted): the actions that the task came to make.
    pub granted: u32,
    /// Bids answered [`BidAnswer::Busy`](crate::BidAnswer::Busy).
    pub busy: u32,
    /// Bids answered [`BidAnswer::Held`](crate::BidAnswer::Held).
    pub held: u32,
    /// Bids answered [`BidAnswer::ShareSpent`](crate::BidAnswer::ShareSpent).
    pub share_spent: u32,
}

impl Tally {
    /// The four tallies added up: the task's bids but for those answered `Finished`.
    pub fn bids(self) -> u64 {
        [self.granted, self.busy, self.held, self.share_spent].map(u64::from).iter().sum()
    }
}

impl fmt::Display for Tally {
    fn fmt(&self, to: &mut fmt::Formatter<'_>) -> fmt::Result {
        write!(to, "{} granted, {} busy, {} held, {} share spent", self.granted, self.busy, self.held, self.share_spent)
    }
}

impl From<sys::Tally> for Tally {
    fn from(row: sys::Tally) -> Tally {
        let sys::Tally { granted, busy, held, share_spent } = row;
        Tally { granted, busy, held, share_spent }
    }
}

/// What an accepted trial answers. The bids of all rows ([`Tally::bids`]) and `finished` add up to `made`.
#[must_use = "it is all that the trial was for"]
#[derive(Clone, Copy, Debug, PartialEq, Eq, Hash)]
pub struct Trial {
    /// How many bids were made: the rounds times the order's length, or fewer, if every task was finished before; at most 16,711,425.
    pub made: u64,
    /// A row for each of the eight tasks, by its number; all 0 for tasks that the set doesn't have.
    pub rows: [Tally; sys::MAX_TASKS],
    /// How many bids, of all tasks together, were answered [`BidAnswer::Finished`](crate::BidAnswer::Finished).
    pub finished: u64,
}
