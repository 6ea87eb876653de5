//! What calls answer: an accepted analysis, a bid's answer, where a state lies in a plan, a refusal with its place, and how they are had from the library's numbers.

use crate::{sys, Refusal};
use core::fmt;

/// How much of a set's grid is unsafe, in parts per thousand of its permitted states: 1,000 times the unsafe states divided by the permitted ones, with
///
/// > 1,000 · unsafe = quotient · permitted + remainder, and remainder < permitted.
///
/// The permitted states are all but the forbidden ones, and the unsafe states are those of them from which no steps lead to the end: the dead ones too, and also
/// those that no run comes to. So it is for comparing two drafts of a set, by their quotients; it is no probability. Where the quotients are the same, the
/// remainders alone don't say which set has more: each counts in parts of its own set's permitted states. For this reason it has no order.
///
/// Both numbers are 0 exactly if no state is unsafe. It prints as `153 of every 1000 permitted states, remainder 33`.
#[derive(Clone, Copy, Debug, PartialEq, Eq, Hash)]
pub struct PerThousand {
    /// Of every 1,000 permitted states so many are unsafe, rounded down; at most 999.
    pub quotient: u32,
    /// What the rounding cut off, exactly: so many parts of as many as the set has permitted states.
    pub remainder: u32,
}

impl fmt::Display for PerThousand {
    fn fmt(&self, to: &mut fmt::Formatter<'_>) -> fmt::Result {
        write!(to, "{} of every 1000 permitted states, remainder {}", self.quotient, self.remainder)
    }
}

/// What an accepted analysis answers.
#[must_use = "it says how many words of the slice are the plan"]
#[derive(Clone, Copy, Debug, PartialEq, Eq, Hash)]
pub struct Planned {
    /// The number of plan words.
    pub words: usize,
    /// How much of the grid is unsafe.
    pub per_thousand: PerThousand,
}

/// What the broker answers to a bid. Only `Granted` lets the task act and changes the record.
#[must_use = "only Granted lets the task act"]
#[derive(Clone, Copy, Debug, PartialEq, Eq, Hash)]
pub enum BidAnswer {
    /// The task makes its next action now; the record counts it as made.
    Granted,
    /// The task has no action left.
    Finished,
    /// The task waits and asks again later: its next action claims more units of a device than are free.
    Busy {
        /// The device's number.
        device: usize,
    },
    /// The task waits and asks again later: after its next action, tasks would end up waiting for each other for ever.
    Held {
        /// The rank of the unsafe state that it would lead to. [`Set::state_of_rank`](crate::Set::state_of_rank) has its positions.
        rank: usize,
    },
    /// The task waits and asks again later: it has had its share of the window, and another task that has share left would be granted now. So another is to go
    /// first; asked with the same share, the answer stays until one is granted something.
    ShareSpent,
}

impl BidAnswer {
    /// The name of its kind, for a log; `arbiter_kind_text` in C. As a whole it prints with its value, as `waits for device 1`.
    pub fn text(self) -> &'static str {
        match self {
            BidAnswer::Granted => "granted",
            BidAnswer::Finished => "finished",
            BidAnswer::Busy { .. } => "busy",
            BidAnswer::Held { .. } => "held",
            BidAnswer::ShareSpent => "share spent",
        }
    }
}

impl fmt::Display for BidAnswer {
    fn fmt(&self, to: &mut fmt::Formatter<'_>) -> fmt::Result {
        match self {
            BidAnswer::Granted | BidAnswer::Finished => to.write_str(self.text()),
            BidAnswer::Busy { device } => write!(to, "waits for device {device}"),
            BidAnswer::Held { rank } => write!(to, "held back from unsafe state {rank}"),
            BidAnswer::ShareSpent => to.write_str("waits, since its share is spent"),
        }
    }
}

/// Where a state lies in a plan. A state that boxes of both kinds hold is in a forbidden one; of each kind the first box that holds it counts.
///
/// For a plan that an analysis wrote, and a state of its set: `Forbidden` where the map has [`sys::FORBIDDEN`], `Unsafe` where it has [`sys::UNSAFE`] or
/// [`sys::DEAD`], `Neither` where it has [`sys::OPEN`].
#[must_use = "it is all that the question was for"]
#[derive(Clone, Copy, Debug, PartialEq, Eq, Hash)]
pub enum Location {
    /// A forbidden box holds it: more units of a device are held there than it has.
    Forbidden {
        /// The index of the box's first word; [`Plan::box_at`](crate::Plan::box_at) has the box.
        index: usize,
    },
    /// An unsafe box holds it, and no forbidden one: steps no longer lead from it to the end.
    Unsafe {
        /// The index of the box's first word; [`Plan::box_at`](crate::Plan::box_at) has the box.
        index: usize,
    },
    /// No box holds it.
    Neither,
}

impl Location {
    /// The index of the first word of the box that holds the state; none if no box does.
    pub fn index(self) -> Option<usize> {
        match self {
            Location::Forbidden { index } | Location::Unsafe { index } => Some(index),
            Location::Neither => None,
        }
    }

    /// The name of its kind, for a log; `arbiter_kind_text` in C. As a whole it prints with its index, as `in forbidden box at 3`.
    pub fn text(self) -> &'static str {
        match self {
            Location::Forbidden { .. } => "in forbidden box",
            Location::Unsafe { .. } => "in unsafe box",
            Location::Neither => "in no box",
        }
    }
}

impl fmt::Display for Location {
    fn fmt(&self, to: &mut fmt::Formatter<'_>) -> fmt::Result {
        to.write_str(self.text())?;
        match self.index() {
            Some(index) => write!(to, " at {index}"),
            None => Ok(()),
        }
    }
}

/// A refusal with its place. It prints as `refused 8 at 3: the task claims a device that it holds already`.
#[derive(Clone, Copy, Debug, PartialEq, Eq, Hash)]
pub struct Refused {
    /// Why.
    pub refusal: Refusal,
    /// Where, or how much is needed: each [`Refusal`] says which.
    pub place: usize,
}

impl fmt::Display for Refused {
    fn fmt(&self, to: &mut fmt::Formatter<'_>) -> fmt::Result {
        write!(to, "refused {} at {}: {}", self.refusal.number(), self.place, self.refusal)
    }
}

#[cfg(feature = "std")]
impl std::error::Error for Refused {}

/// A number that is no refusal's.
#[derive(Clone, Copy, Debug, PartialEq, Eq, Hash)]
pub struct NoSuchRefusal(pub u8);

impl fmt::Display for NoSuchRefusal {
    fn fmt(&self, to: &mut fmt::Formatter<'_>) -> fmt::Result {
        write!(to, "no refusal has the number {}", self.0)
    }
}

#[cfg(feature = "std")]
impl std::error::Error for NoSuchRefusal {}

impl TryFrom<u8> for Refusal {
    type Error = NoSuchRefusal;

    /// The refusal of this number.
    ///
    /// # Errors
    ///
    /// The number itself, if it is no refusal's.
    fn try_from(number: u8) -> Result<Refusal, NoSuchRefusal> {
        Refusal::ALL.into_iter().find(|refusal| refusal.number() == number).ok_or(NoSuchRefusal(number))
    }
}

/// An answer's value. Lengths, ranks and numbers of 64 bits all fit, since this crate is for x86-64 alone.
pub(crate) fn value_of(answer: sys::Answer) -> usize {
    answer.value as usize
}

/// The refusal in an answer whose kind is none of the call's others.
///
/// The contracts in `crates/arbiter` leave each call only the kinds that [`crate::plain`] asks for before it comes here, and for refusals only the
/// numbers of `docs/SCOPE.md`. So this panics only if another library was linked in the place of this one.
pub(crate) fn refused(call: &str, answer: sys::Answer) -> Refused {
    let refusal = u8::try_from(answer.refusal).ok().and_then(|number| Refusal::try_from(number).ok());
    match (answer.kind, refusal) {
        (sys::REFUSED, Some(refusal)) => Refused { refusal, place: value_of(answer) },
        _ => panic!("{call} gave an answer that it hasn't got ({answer:?}): the linked libarbiter.a isn't the one that belongs to this crate"),
    }
}
