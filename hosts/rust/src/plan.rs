//! What stands in a plan, and where states lie in it (`docs/SCOPE.md`, "Plan" and "Stored plans").

use crate::words::{field_of, kind_of};
use crate::{plain, sys, Location, Positions, Refused};
use core::ops::RangeInclusive;

/// A plan, lent by whoever has its words, up to and with its END.
#[derive(Clone, Copy, Debug, PartialEq, Eq)]
pub struct Plan<'a> {
    words: &'a [u32],
}

/// What is wrong with the states of a box.
#[derive(Clone, Copy, Debug, PartialEq, Eq, Hash)]
pub enum BoxKind {
    /// In each of them more units of a device are held than it has.
    Forbidden {
        /// The device's number.
        device: usize,
    },
    /// From none of them do steps lead to the end.
    Unsafe,
}

/// A box of a plan: the states in which every task's position lies within its side.
#[derive(Clone, Copy, Debug, PartialEq, Eq)]
pub struct PlanBox<'a> {
    /// Whether it is forbidden or unsafe.
    pub kind: BoxKind,
    sides: &'a [u32],
}

impl<'a> Plan<'a> {
    /// A plan's words as [`plain::analyse`] wrote them, or as they were stored. Nothing looks here at whether they are a plan; if not, then the boxes and dead
    /// states that are found in them mean nothing. [`locate`](Plan::locate) does look, before it answers.
    pub fn new(words: &'a [u32]) -> Plan<'a> {
        Plan { words }
    }

    /// Its words.
    pub fn words(self) -> &'a [u32] {
        self.words
    }

    /// Its boxes in order: the forbidden ones, then the unsafe ones.
    pub fn boxes(self) -> impl Iterator<Item = PlanBox<'a>> {
        (0..self.words.len()).filter_map(move |index| self.box_at(index))
    }

    /// The box whose first word has this index, as a [`Location`] names it; none if no box starts there.
    pub fn box_at(self, index: usize) -> Option<PlanBox<'a>> {
        let (&word, behind) = self.words.get(index..)?.split_first()?;
        let kind = match kind_of(word) {
            sys::FORBIDDEN_BOX => BoxKind::Forbidden { device: field_of(word) },
            sys::UNSAFE_BOX => BoxKind::Unsafe,
            _ => return None,
        };
        Some(PlanBox { kind, sides: sides_at_start(behind) })
    }

    /// Where does this state lie, in a plan for so many tasks? [`plain::locate`] says more.
    ///
    /// ```
    /// use arbiter::{BoxKind, Location, Plan};
    ///
    /// // The plan of example a, as it was stored, and its task count; the set isn't needed.
    /// let words = [
    ///     0x60000000, 0x80000103, 0x80010202, 0x60000001, 0x80000202, 0x80010103, 0x70000000, 0x80000101, 0x80010101, 0x90000006, 0x5000000A,
    /// ];
    /// let (plan, tasks) = (Plan::new(&words), 2);
    ///
    /// assert_eq!(plan.locate([2, 1, 0, 0, 0, 0, 0, 0], tasks)?, Location::Forbidden { index: 3 });
    /// let plan_box = plan.box_at(3).unwrap();
    /// assert_eq!(plan_box.kind, BoxKind::Forbidden { device: 1 });
    /// assert!(plan_box.sides().eq([2..=2, 1..=3]));
    /// # Ok::<(), arbiter::Refused>(())
    /// ```
    ///
    /// # Errors
    ///
    /// Refusals 22 and 23, whatever the state.
    ///
    /// # Panics
    ///
    /// If the linked library isn't the one that belongs to this crate.
    pub fn locate(self, positions: Positions, tasks: usize) -> Result<Location, Refused> {
        plain::locate(positions, self.words, tasks)
    }

    /// The ranks, rising, of the dead states to which allowed steps lead from the start. These are the ones to mend first: without the arbiter, tasks can come to
    /// wait for each other there in service.
    pub fn dead_states(self) -> impl Iterator<Item = usize> + 'a {
        self.ranks_of(sys::DEAD_STATE)
    }

    /// The ranks, rising, of the other dead states, which no run can enter. They matter only if a record or the set is changed by hand, or a task's order changes.
    pub fn unreached_states(self) -> impl Iterator<Item = usize> + 'a {
        self.ranks_of(sys::UNREACHED_STATE)
    }

    fn ranks_of(self, kind: u32) -> impl Iterator<Item = usize> + 'a {
        self.words.iter().filter(move |&&word| kind_of(word) == kind).map(|&word| field_of(word))
    }
}

fn sides_at_start(words: &[u32]) -> &[u32] {
    let count = words.iter().take_while(|&&word| kind_of(word) == sys::SIDE).count();
    &words[..count]
}

impl<'a> PlanBox<'a> {
    /// The lowest to the highest position in the box, for each task from task 0 on.
    pub fn sides(self) -> impl Iterator<Item = RangeInclusive<u8>> + 'a {
        self.sides.iter().map(|word| {
            let [highest, lowest, ..] = word.to_le_bytes();
            lowest..=highest
        })
    }
}
