//! A set in service (`docs/SCOPE.md`, "Broker" and "Route").

use crate::{plain, sys, Analysed, BidAnswer, Record, Refused, Settings, State};
use alloc::vec;
use alloc::vec::Vec;

/// A set in service: what its analysis made, and the one record for its devices.
///
/// It isn't `Clone`: two records don't know of each other. Several threads that bid share it behind a lock.
///
/// ```
/// use arbiter::{Analysed, BidAnswer, Record, Service, Settings};
///
/// # let set = [
/// #     0x10000001, 0x10000001, 0x20000000, 0x30000000, 0x30000001, 0x40000001, 0x40000000, 0x20000000, 0x30000001, 0x30000000,
/// #     0x40000000, 0x40000001, 0x5000000C,
/// # ];
/// let mut service = Service::start(Analysed::new(set)?);
/// assert_eq!(service.bid(1, Settings::new(2, 4))?, BidAnswer::Granted);
/// let stored = service.record().to_bytes();
///
/// // After a restart the set is analysed again, and service goes on from the record.
/// let service = Service::resume(Analysed::new(set)?, Record::from_bytes(stored))?;
/// assert!(service.state().holds(1, 1));
/// assert_eq!(service.route()?, [1, 1, 0, 1, 0, 0, 0]);
/// # Ok::<(), arbiter::Refused>(())
/// ```
#[derive(Debug)]
pub struct Service {
    analysed: Analysed,
    record: Record,
}

impl Service {
    /// Starts service, every task at its start.
    #[must_use]
    pub fn start(analysed: Analysed) -> Service {
        Service { analysed, record: Record::fresh() }
    }

    /// Goes on from a record that was stored.
    ///
    /// A record is taken if its state is open, as that of every record in service is. What can't be seen from it: whether it is the last one that this set's
    /// service left, and not an older one or another set's; and its grant number, which may be any. Its counts are held to a window by each bid: go on with the
    /// [`Settings`] that it was left with. What each task was granted last, it may not have made: [`State::last_action`] says what that is, and `docs/HOSTS.md`
    /// what to do.
    ///
    /// # Errors
    ///
    /// [`Refusal::BadRecord`](crate::Refusal::BadRecord) if the set has no such state or it is forbidden, or a task that the set doesn't have has a count;
    /// [`Refusal::NoRoute`](crate::Refusal::NoRoute) if it is unsafe. Bring the tasks to their start by other means, and [`start`](Service::start).
    pub fn resume(analysed: Analysed, record: Record) -> Result<Service, Refused> {
        let service = Service { analysed, record };
        // From the open states a route leads to the end, and from no others.
        service.route()?;
        Ok(service)
    }

    /// May this task make its next action? [`BidAnswer::Granted`] counts it as made; no other answer changes anything.
    ///
    /// The settings are best the same for all bids of a service; [`Settings::OFF`] has no shares.
    ///
    /// An answer that nobody looks at is a warning, also where `?` has taken the refusals away:
    ///
    /// ```compile_fail
    /// #![deny(unused_must_use)]
    /// # use arbiter::{Refused, Service, Settings};
    /// fn bid_and_act(service: &mut Service, settings: Settings) -> Result<(), Refused> {
    ///     service.bid(0, settings)?;
    ///     Ok(())
    /// }
    /// ```
    ///
    /// ```
    /// #![deny(unused_must_use)]
    /// # use arbiter::{BidAnswer, Refused, Service, Settings};
    /// fn may_act(service: &mut Service, settings: Settings) -> Result<bool, Refused> {
    ///     Ok(service.bid(0, settings)? == BidAnswer::Granted)
    /// }
    /// ```
    ///
    /// # Errors
    ///
    /// [`Refusal::NoSuchTask`](crate::Refusal::NoSuchTask); [`Refusal::BadSetting`](crate::Refusal::BadSetting);
    /// [`Refusal::BadRecord`](crate::Refusal::BadRecord) if the window isn't more than [`Record::window_grants`], which comes only where it was made smaller. Any
    /// other refusal is a sign of damaged memory: stop the service.
    pub fn bid(&mut self, task: usize, settings: Settings) -> Result<BidAnswer, Refused> {
        plain::bid(&mut self.record, self.analysed.set().words(), self.analysed.map(), task, settings)
    }

    /// Starts every task anew once all are finished; the grant number stays, and the counts become 0.
    ///
    /// # Errors
    ///
    /// [`Refusal::NotAtEnd`](crate::Refusal::NotAtEnd), which changes nothing. Any other refusal is a sign of damaged memory: stop the service.
    pub fn again(&mut self) -> Result<(), Refused> {
        plain::again(&mut self.record, self.analysed.set().words())
    }

    /// The steps from the present state to the end, each a task's number: always the lowest task that can go on.
    ///
    /// # Errors
    ///
    /// None in service; a refusal is a sign of damaged memory: stop the service.
    pub fn route(&self) -> Result<Vec<u8>, Refused> {
        let words = self.analysed.set().words();
        // A set has more words than actions.
        let mut route = vec![sys::NO_STEP; words.len()];
        let length = plain::route(&self.record, words, self.analysed.map(), &mut route)?;
        route.truncate(length);
        Ok(route)
    }

    /// The set with its map and plan.
    pub fn analysed(&self) -> &Analysed {
        &self.analysed
    }

    /// The record, to store it: for [`resume`](Service::resume) after a restart.
    pub fn record(&self) -> &Record {
        &self.record
    }

    /// The present state: what each task did last and does next, and who holds what.
    pub fn state(&self) -> State<'_> {
        State { set: self.analysed.set(), positions: self.record.positions() }
    }
}
