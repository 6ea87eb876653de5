//! What is so in a state of a set (`docs/SCOPE.md`, "States and holds").

use crate::{sys, Action, Positions, Set};

/// A state of a set: how many of its actions each task has done, and what follows from it.
#[derive(Clone, Copy, Debug, PartialEq, Eq)]
pub struct State<'a> {
    pub(crate) set: Set<'a>,
    // None above its task's number of actions.
    pub(crate) positions: Positions,
}

/// How many actions each task has; 0 for tasks that aren't there. An accepted task has at most 254.
fn lengths(set: Set) -> Positions {
    core::array::from_fn(|task| set.actions(task).count() as u8)
}

impl<'a> State<'a> {
    pub(crate) fn new(set: Set<'a>, positions: Positions) -> Option<State<'a>> {
        let fits = positions.iter().zip(lengths(set)).all(|(&position, length)| position <= length);
        fits.then_some(State { set, positions })
    }

    pub(crate) fn of_rank(set: Set<'a>, rank: usize) -> Option<State<'a>> {
        let mut positions = [0; sys::MAX_TASKS];
        let mut left = rank;
        for (position, length) in positions.iter_mut().zip(lengths(set)).rev() {
            let count = usize::from(length) + 1;
            *position = (left % count) as u8;
            left /= count;
        }
        (left == 0).then_some(State { set, positions })
    }

    /// The set that it is a state of.
    pub fn set(self) -> Set<'a> {
        self.set
    }

    /// How many actions each task has done; 0 for tasks that the set doesn't have.
    pub fn positions(self) -> Positions {
        self.positions
    }

    /// How many states stand before it in order, task 0 weighing most: the place of its byte in the map.
    pub fn rank(self) -> usize {
        let counts = lengths(self.set).map(|length| usize::from(length) + 1);
        self.positions.iter().zip(counts).fold(0, |rank, (&position, count)| rank * count + usize::from(position))
    }

    /// The action that the task has made last: after a grant, the one that was granted. None at the task's start, and if there is no such task.
    pub fn last_action(self, task: usize) -> Option<Action> {
        self.done(task).last()
    }

    /// The action that the task bids for next. None if it is finished, and if there is no such task.
    pub fn next_action(self, task: usize) -> Option<Action> {
        self.set.actions(task).nth(self.position(task))
    }

    /// Whether the task holds the device.
    pub fn holds(self, task: usize, device: usize) -> bool {
        self.units(task, device) > 0
    }

    /// How many units of the device the task holds; 0 if it doesn't hold it.
    pub fn units(self, task: usize, device: usize) -> usize {
        match self.done(task).filter(|action| action.device() == device).last() {
            Some(Action::Claim { units, .. }) => units,
            Some(Action::Release { .. }) | None => 0,
        }
    }

    /// How many units of the device are held, by all tasks together. In service they are never more than its capacity.
    pub fn units_in_use(self, device: usize) -> usize {
        (0..self.set.tasks()).map(|task| self.units(task, device)).sum()
    }

    /// The tasks that hold the device, by rising number.
    pub fn holders(self, device: usize) -> impl Iterator<Item = usize> + 'a {
        (0..self.set.tasks()).filter(move |&task| self.holds(task, device))
    }

    fn position(self, task: usize) -> usize {
        self.positions.get(task).copied().map_or(0, usize::from)
    }

    /// The actions that the task has made.
    fn done(self, task: usize) -> impl Iterator<Item = Action> + 'a {
        self.set.actions(task).take(self.position(task))
    }
}
