//! A set with what its analysis made (`docs/SCOPE.md`, "Analysis").

use crate::{plain, PerThousand, Plan, Planned, Refusal, Refused, Set, Settings, Trial};
use alloc::vec;
use alloc::vec::Vec;

/// Enough for the plans of most sets.
const FIRST_PLAN_LENGTH: usize = 1024;

/// A set, its map and its plan. Only the analysis makes one, so the map is always this set's own.
///
/// It isn't made from a stored map, since nobody could tell whether that is the set's. A host that stores sets analyses them at every start: a few
/// milliseconds on the largest sets measured. One that can't spare them makes the [`plain`] calls.
#[derive(Clone, Debug, PartialEq, Eq)]
pub struct Analysed {
    set: Vec<u32>,
    map: Vec<u8>,
    plan: Vec<u32>,
    per_thousand: PerThousand,
}

impl Analysed {
    /// Analyses a set, which needs some 300 KiB of stack.
    ///
    /// # Errors
    ///
    /// Refusals 1 to 12 and 24: give them to the set's author. [`cleaned`](crate::cleaned) mends 24.
    ///
    /// # Panics
    ///
    /// If the linked library isn't the one that belongs to this crate.
    pub fn new(set: impl Into<Vec<u32>>) -> Result<Analysed, Refused> {
        let set = set.into();
        let mut map = vec![plain::NOT_ANALYSED; plain::read(&set)?];
        let mut plan = vec![0; FIRST_PLAN_LENGTH];
        loop {
            match plain::analyse(&set, &mut map, &mut plan) {
                Ok(Planned { words, per_thousand }) => {
                    plan.truncate(words);
                    plan.shrink_to_fit();
                    return Ok(Analysed { set, map, plan, per_thousand });
                }
                Err(Refused { refusal: Refusal::PlanTooShort, place }) => plan.resize(2 * place, 0),
                Err(refused) => return Err(refused),
            }
        }
    }

    /// The set.
    pub fn set(&self) -> Set<'_> {
        Set { words: &self.set, states: self.map.len() }
    }

    /// The map: a byte for each state, at its rank.
    pub fn map(&self) -> &[u8] {
        &self.map
    }

    /// The plan.
    pub fn plan(&self) -> Plan<'_> {
        Plan::new(&self.plan)
    }

    /// How much of the grid is unsafe, in parts per thousand of the permitted states.
    ///
    /// ```
    /// use arbiter::{Analysed, PerThousand};
    ///
    /// // Two tasks that take two devices in opposite order: one of 20 permitted states is unsafe.
    /// let set = [
    ///     0x10000001, 0x10000001, 0x20000000, 0x30000000, 0x30000001, 0x40000001, 0x40000000, 0x20000000, 0x30000001, 0x30000000,
    ///     0x40000000, 0x40000001, 0x5000000C,
    /// ];
    /// assert_eq!(Analysed::new(set)?.per_thousand(), PerThousand { quotient: 50, remainder: 0 });
    ///
    /// // In the same order: none is.
    /// let mended = [
    ///     0x10000001, 0x10000001, 0x20000000, 0x30000000, 0x30000001, 0x40000001, 0x40000000, 0x20000000, 0x30000000, 0x30000001,
    ///     0x40000001, 0x40000000, 0x5000000C,
    /// ];
    /// assert_eq!(Analysed::new(mended)?.per_thousand(), PerThousand { quotient: 0, remainder: 0 });
    /// # Ok::<(), arbiter::Refused>(())
    /// ```
    pub fn per_thousand(&self) -> PerThousand {
        self.per_thousand
    }

    /// What do these settings do? The answers to bids of the order's tasks, round after round, counted: for each task those granted and those that had to wait, and
    /// why. The bids are made on a fresh record of the trial's own, so that nothing changes, and it may be made in service too; where every task is finished it stops.
    /// [`plain::trial`] says more of orders and rounds.
    ///
    /// ```
    /// use arbiter::{Analysed, Settings};
    ///
    /// // Call-taking, task 0, claims and releases the line once, paging, task 1, three times.
    /// let set = [
    ///     0x10000001, 0x20000000, 0x30000000, 0x40000000, 0x20000000, 0x30000000, 0x40000000, 0x30000000, 0x40000000, 0x30000000, 0x40000000, 0x5000000B,
    /// ];
    /// let analysed = Analysed::new(set)?;
    /// // Paging bids three times as often.
    /// let waits = |settings| analysed.trial(&[1, 1, 1, 0], 100, settings).map(|trial| trial.rows.map(|row| (row.busy, row.share_spent)));
    /// let (without_shares, shared) = (waits(Settings::OFF)?, waits(Settings::new(2, 4))?);
    /// assert_eq!(without_shares[..2], [(1, 0), (0, 0)]);
    /// assert_eq!(shared[..2], [(0, 0), (3, 1)]);
    /// # Ok::<(), arbiter::Refused>(())
    /// ```
    ///
    /// # Errors
    ///
    /// [`Refusal::BadSetting`](crate::Refusal::BadSetting), and then [`Refusal::BadOrder`](crate::Refusal::BadOrder), whatever the rounds are. Any other refusal is a sign
    /// of damaged memory.
    ///
    /// # Panics
    ///
    /// If the linked library isn't the one that belongs to this crate.
    pub fn trial(&self, order: &[u8], rounds: u16, settings: Settings) -> Result<Trial, Refused> {
        plain::trial(&self.set, &self.map, order, rounds, settings)
    }
}
