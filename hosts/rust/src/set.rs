//! What stands in a set (`docs/SCOPE.md`, "Sets").

use crate::words::{claimed_device, claimed_units, field_of, kind_of};
use crate::{plain, sys, Positions, Refused, State};
use core::fmt;

/// One action of a task.
///
/// ```
/// use arbiter::{Action, Set};
///
/// // A gateway of two channels. A radio patch takes both together, which is one extra unit, and a call takes one.
/// let words = [0x10000002, 0x20000000, 0x30010000, 0x40000000, 0x20000000, 0x30000000, 0x40000000, 0x50000007];
/// let set = Set::read(&words)?;
/// assert_eq!(set.actions(0).next(), Some(Action::Claim { device: 0, units: 2 }));
/// assert_eq!(set.actions(1).next(), Some(Action::Claim { device: 0, units: 1 }));
/// assert_eq!(set.actions(0).last(), Some(Action::Release { device: 0 }));
/// # Ok::<(), arbiter::Refused>(())
/// ```
#[derive(Clone, Copy, Debug, PartialEq, Eq, Hash)]
pub enum Action {
    /// The task takes units of the device, all of them together.
    Claim {
        /// The device's number.
        device: usize,
        /// How many units it takes, 1 to the device's capacity.
        units: usize,
    },
    /// The task gives back all units of the device that it holds.
    Release {
        /// The device's number.
        device: usize,
    },
}

impl Action {
    /// The device that is taken or given back.
    pub fn device(self) -> usize {
        match self {
            Action::Claim { device, .. } | Action::Release { device } => device,
        }
    }

    /// The action that a set's word says, if it says one.
    fn of_word(word: u32) -> Option<Action> {
        match kind_of(word) {
            sys::CLAIM => Some(Action::Claim { device: claimed_device(word), units: claimed_units(word) }),
            sys::RELEASE => Some(Action::Release { device: field_of(word) }),
            _ => None,
        }
    }
}

impl fmt::Display for Action {
    fn fmt(&self, to: &mut fmt::Formatter<'_>) -> fmt::Result {
        match self {
            Action::Claim { device, units: 1 } => write!(to, "claims device {device}"),
            Action::Claim { device, units } => write!(to, "claims {units} units of device {device}"),
            Action::Release { device } => write!(to, "releases device {device}"),
        }
    }
}

/// An accepted set, lent by whoever has its words. Everything here is found by a walk over them, at most 533.
#[derive(Clone, Copy, Debug, PartialEq, Eq)]
pub struct Set<'a> {
    // Only words that were read, and the number of states that the reading answered.
    pub(crate) words: &'a [u32],
    pub(crate) states: usize,
}

impl<'a> Set<'a> {
    /// Reads a set's words.
    ///
    /// # Errors
    ///
    /// Refusals 1 to 12, 24 and 28.
    ///
    /// # Panics
    ///
    /// If the linked library isn't the one that belongs to this crate.
    pub fn read(words: &'a [u32]) -> Result<Set<'a>, Refused> {
        Ok(Set { words, states: plain::read(words)? })
    }

    /// Takes the devices that no task claims out of a set that was stored: writes its words again without them, as [`plain::clean`] does, and reads what is
    /// written. A slice as long as the words is always long enough.
    ///
    /// # Errors
    ///
    /// Refusals 1 to 12 and 28, by the rules that had no 24, and 25. They leave the slice untouched.
    ///
    /// # Panics
    ///
    /// If the linked library isn't the one that belongs to this crate.
    pub fn clean(words: &[u32], slice: &'a mut [u32]) -> Result<Set<'a>, Refused> {
        let length = plain::clean(words, slice)?;
        Set::read(&slice[..length])
    }

    /// Its words.
    pub fn words(self) -> &'a [u32] {
        self.words
    }

    /// How many states it has, and so bytes its map.
    pub fn states(self) -> usize {
        self.states
    }

    /// How many tasks it has; they are numbered from 0.
    pub fn tasks(self) -> usize {
        self.words.iter().filter(|&&word| kind_of(word) == sys::TASK).count()
    }

    /// How many devices it has; they are numbered from 0.
    pub fn devices(self) -> usize {
        self.capacities().count()
    }

    /// How many units each device has, from device 0 on: so many tasks may hold it at once, if each claims one.
    pub fn capacities(self) -> impl Iterator<Item = usize> + 'a {
        self.words.iter().take_while(|&&word| kind_of(word) == sys::DEVICE).map(|&word| field_of(word))
    }

    /// A task's actions in order; none if there is no such task.
    pub fn actions(self, task: usize) -> impl Iterator<Item = Action> + 'a {
        // The devices stand before the first TASK, and END after the last task's actions.
        let words = self.words.split(|&word| kind_of(word) == sys::TASK).skip(1).nth(task).unwrap_or(&[]);
        words.iter().filter_map(|&word| Action::of_word(word))
    }

    /// The state at these positions, if the set has it.
    pub fn state(self, positions: Positions) -> Option<State<'a>> {
        State::new(self, positions)
    }

    /// The state of this rank, which [`BidAnswer::Held`](crate::BidAnswer::Held) and a plan's dead states name, if the set has it.
    pub fn state_of_rank(self, rank: usize) -> Option<State<'a>> {
        State::of_rank(self, rank)
    }
}
