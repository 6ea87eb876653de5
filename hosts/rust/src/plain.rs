//! The calls as the library has them, over slices that the caller lends: for hosts without a heap, and for those that keep a set's memory themselves.
//!
//! No content of a slice or record is undefined: what a call finds wrong is a refusal. But a call can't find everything. It trusts that
//!
//! - **the map is the one that [`analyse`] wrote for exactly these words.** Another set's map of the same length is taken for this one's, and its
//!   grants may lead to tasks that wait for each other for ever.
//! - **an analysis wrote it at all.** A byte of 0 is [`sys::OPEN`], so a map slice that was zeroed and never analysed grants every bid. Fill it with
//!   [`NOT_ANALYSED`] before: then the first bid is refused with [`Refusal::BadRecord`](crate::Refusal::BadRecord).
//! - **the record is as the last call left it**, and the only one for the set's devices.
//!
//! [`Analysed`](crate::Analysed) and [`Service`](crate::Service) see to all three; they are this module's calls with the slices in one hand.
//! [`trial`] has a record of its own, and changes nothing. [`locate`] and [`clean`] take none of these, and trust nothing. Of [`Settings`], which come with each
//! [`bid`] and [`trial`], none does harm: what isn't allowed is refused.
//!
//! ```
//! use arbiter::{plain, BidAnswer, Location, PerThousand, Record, Settings};
//!
//! # let set = [
//! #     0x10000001, 0x10000001, 0x20000000, 0x30000000, 0x30000001, 0x40000001, 0x40000000, 0x20000000, 0x30000001, 0x30000000,
//! #     0x40000000, 0x40000001, 0x5000000C,
//! # ];
//! let mut map = [plain::NOT_ANALYSED; 64];
//! let mut plan = [0; 64];
//! let planned = plain::analyse(&set, &mut map, &mut plan)?;
//! let plan = &plan[..planned.words];
//! assert_eq!(plan.last(), Some(&0x5000000A));
//! // One of its 20 permitted states is unsafe.
//! assert_eq!(planned.per_thousand, PerThousand { quotient: 50, remainder: 0 });
//!
//! let mut record = Record::fresh();
//! assert_eq!(plain::bid(&mut record, &set, &map, 0, Settings::OFF)?, BidAnswer::Granted);
//! assert_eq!(plain::bid(&mut record, &set, &map, 1, Settings::OFF)?, BidAnswer::Held { rank: 6 });
//!
//! // The state from which that bid was held back, asked of the plan alone.
//! assert_eq!(plain::locate([1, 1, 0, 0, 0, 0, 0, 0], plan, 2)?, Location::Unsafe { index: 6 });
//! # Ok::<(), arbiter::Refused>(())
//! ```

use crate::answers::{refused, value_of};
use crate::{sys, version, BidAnswer, Location, PerThousand, Planned, Positions, Record, Refused, Settings, Tally, Trial};

/// What a map slice is filled with before the analysis: no byte of a map, so that one that no analysis wrote is refused and grants nothing.
pub const NOT_ANALYSED: u8 = 0xFF;

/// Reads a set: its number of states, which is the length of its map.
///
/// # Errors
///
/// Refusals 1 to 12, 24 and 28, which are the set's.
///
/// # Panics
///
/// If the linked library isn't the one that belongs to this crate.
pub fn read(set: &[u32]) -> Result<usize, Refused> {
    version::check();
    // SAFETY: a slice's pointer is non-null and aligned, also when it is empty, and good for its length.
    let answer = unsafe { sys::arbiter_read(set.as_ptr(), set.len()) };
    match answer.kind {
        sys::ACCEPTED => Ok(value_of(answer)),
        _ => Err(refused("arbiter_read", answer)),
    }
}

/// Analyses a set: writes its map and its plan, and answers the number of plan words and how much of the grid is unsafe. Beyond what is written both slices keep
/// what they had, and nothing there is counted.
///
/// Fill the map slice with [`NOT_ANALYSED`] before. Nobody knows how long a plan gets: 1,024 words do for most sets.
///
/// It needs some 300 KiB of stack. Threads of the standard library have 2 MiB, unless one says otherwise.
///
/// # Errors
///
/// Refusals 1 to 14, 24 and 28. 14 leaves the finished map, and zeros in the whole plan slice; the others leave both slices untouched. At 14 too nothing is told of
/// how much is unsafe: a host that goes on without the plan, and wants to know, counts the map's bytes.
///
/// # Panics
///
/// If the linked library isn't the one that belongs to this crate.
pub fn analyse(set: &[u32], map: &mut [u8], plan: &mut [u32]) -> Result<Planned, Refused> {
    version::check();
    // SAFETY: as in `read`; what is lent by `&mut` overlaps nothing.
    let analysis = unsafe { sys::arbiter_analyse(set.as_ptr(), set.len(), map.as_mut_ptr(), map.len(), plan.as_mut_ptr(), plan.len()) };
    let sys::Analysis { answer, quotient, remainder } = analysis;
    match answer.kind {
        sys::PLANNED => Ok(Planned { words: value_of(answer), per_thousand: PerThousand { quotient, remainder } }),
        _ => Err(refused("arbiter_analyse", answer)),
    }
}

/// May this task make its next action? Only [`BidAnswer::Granted`] changes the record.
///
/// # Errors
///
/// Refusals 1 to 13, 16, 17, 18, 24, 26 and 28. 16 comes also if the record's counts together, [`Record::window_grants`], aren't less than the window.
///
/// # Panics
///
/// If the linked library isn't the one that belongs to this crate.
pub fn bid(record: &mut Record, set: &[u32], map: &[u8], task: usize, settings: Settings) -> Result<BidAnswer, Refused> {
    version::check();
    let Settings { share, window } = settings;
    // SAFETY: as in `analyse`.
    let answer = unsafe { sys::arbiter_bid(&mut record.0, set.as_ptr(), set.len(), map.as_ptr(), map.len(), task, share, window) };
    match answer.kind {
        sys::GRANTED => Ok(BidAnswer::Granted),
        sys::FINISHED => Ok(BidAnswer::Finished),
        sys::BUSY => Ok(BidAnswer::Busy { device: value_of(answer) }),
        sys::HELD => Ok(BidAnswer::Held { rank: value_of(answer) }),
        sys::SHARE_SPENT => Ok(BidAnswer::ShareSpent),
        _ => Err(refused("arbiter_bid", answer)),
    }
}

/// Starts every task anew once all are finished; the grant number stays, and the counts become 0.
///
/// # Errors
///
/// Refusals 1 to 12, 16, 19, 24 and 28, which change nothing.
///
/// # Panics
///
/// If the linked library isn't the one that belongs to this crate.
pub fn again(record: &mut Record, set: &[u32]) -> Result<(), Refused> {
    version::check();
    // SAFETY: as in `analyse`.
    let answer = unsafe { sys::arbiter_again(&mut record.0, set.as_ptr(), set.len()) };
    match answer.kind {
        sys::RESTARTED => Ok(()),
        _ => Err(refused("arbiter_again", answer)),
    }
}

/// Writes the steps from the record's state to the end, one byte a step, always the lowest task that can go on, and answers their number.
///
/// A slice as long as the set is always long enough. The bytes beyond the route keep what they had. A route looks at no shares: a bid on the way that it shows may
/// still be answered [`BidAnswer::ShareSpent`].
///
/// # Errors
///
/// Refusals 1 to 13, 16, 18, 20, 21, 24 and 28, which fill the whole slice with [`sys::NO_STEP`].
///
/// # Panics
///
/// If the linked library isn't the one that belongs to this crate.
pub fn route(record: &Record, set: &[u32], map: &[u8], route: &mut [u8]) -> Result<usize, Refused> {
    version::check();
    // SAFETY: as in `analyse`; the record goes by value.
    let answer = unsafe { sys::arbiter_route(record.0, set.as_ptr(), set.len(), map.as_ptr(), map.len(), route.as_mut_ptr(), route.len()) };
    match answer.kind {
        sys::ROUTED => Ok(value_of(answer)),
        _ => Err(refused("arbiter_route", answer)),
    }
}

/// Where does this state lie in a plan for so many tasks? It needs the plan's words, up to and with END, and neither set nor map.
///
/// All words are looked at before any of them is answered from. Positions past the task count are unread; none is wrong by itself, and one above every box
/// lies in none. Whose plan it is, the words don't say: a plan of another set with as many tasks is answered from like any other.
///
/// # Errors
///
/// Refusals 22 and 23, whatever the state.
///
/// # Panics
///
/// If the linked library isn't the one that belongs to this crate.
pub fn locate(positions: Positions, plan: &[u32], tasks: usize) -> Result<Location, Refused> {
    version::check();
    // SAFETY: as in `read`; the state goes by value.
    let answer = unsafe { sys::arbiter_locate(sys::State { positions }, plan.as_ptr(), plan.len(), tasks) };
    match answer.kind {
        sys::IN_FORBIDDEN_BOX => Ok(Location::Forbidden { index: value_of(answer) }),
        sys::IN_UNSAFE_BOX => Ok(Location::Unsafe { index: value_of(answer) }),
        sys::IN_NO_BOX => Ok(Location::Neither),
        _ => Err(refused("arbiter_locate", answer)),
    }
}

/// Writes the set again without the devices that no task claims, the others numbered anew from 0 in their old order, and answers the number of words. It is for
/// sets that were stored before such devices were refused, and takes them as they were taken then.
///
/// A slice as long as the set is always long enough. The words beyond the cleaned set keep what they had. What is written is accepted by [`read`], with as many
/// states, and its map is the old set's byte for byte, each claim has its units; a set that has no such device comes back word for word.
///
/// ```
/// use arbiter::{plain, Refusal, Refused};
///
/// // Nobody claims device 0, so device 1 becomes device 0.
/// let old = [0x10000008, 0x10000002, 0x20000000, 0x30000001, 0x40000001, 0x50000005];
/// assert_eq!(plain::read(&old), Err(Refused { refusal: Refusal::UnclaimedDevice, place: 0 }));
///
/// let mut clean = [0; 6];
/// let words = plain::clean(&old, &mut clean)?;
/// assert_eq!(clean[..words], [0x10000002, 0x20000000, 0x30000000, 0x40000000, 0x50000004]);
/// # Ok::<(), Refused>(())
/// ```
///
/// # Errors
///
/// Refusals 1 to 12 and 28, by the rules that had no 24, and 25. They leave the slice untouched.
///
/// # Panics
///
/// If the linked library isn't the one that belongs to this crate.
pub fn clean(set: &[u32], clean: &mut [u32]) -> Result<usize, Refused> {
    version::check();
    // SAFETY: as in `analyse`.
    let answer = unsafe { sys::arbiter_clean(set.as_ptr(), set.len(), clean.as_mut_ptr(), clean.len()) };
    match answer.kind {
        sys::CLEANED => Ok(value_of(answer)),
        _ => Err(refused("arbiter_clean", answer)),
    }
}

/// What do these settings do? Makes bids on a fresh record of its own, as [`bid`] answers them: of the order's tasks one after another, round after round, and counts
/// the answers. It looks before each bid whether every task is finished, and stops there. Nothing lent is changed, so a trial may be made at any time.
///
/// The order has 1 to 255 tasks of the set, each as often as wanted: one that stands there twice bids twice in each round, one that doesn't never bids, and others
/// may wait for it all the time. With the set's own map and every task in the order, as many rounds as the set has actions bring every task home, and more rounds cost
/// nothing; else 65,535 rounds of 255 tasks are 16,711,425 bids.
///
/// ```
/// use arbiter::{plain, Settings, Tally};
///
/// # let set = [
/// #     0x10000001, 0x10000001, 0x20000000, 0x30000000, 0x30000001, 0x40000001, 0x40000000, 0x20000000, 0x30000001, 0x30000000,
/// #     0x40000000, 0x40000001, 0x5000000C,
/// # ];
/// let mut map = [plain::NOT_ANALYSED; 64];
/// let _ = plain::analyse(&set, &mut map, &mut [0; 64])?;
///
/// // Task 0 bids twice as often as task 1.
/// let order = [0, 0, 1];
/// let without_shares = plain::trial(&set, &map, &order, 100, Settings::OFF)?;
/// assert_eq!(without_shares.rows[0], Tally { granted: 4, busy: 0, held: 0, share_spent: 0 });
/// assert_eq!(without_shares.rows[1], Tally { granted: 4, busy: 1, held: 0, share_spent: 0 });
/// assert_eq!((without_shares.made, without_shares.finished), (15, 6));
///
/// let shared = plain::trial(&set, &map, &order, 100, Settings::new(2, 4))?;
/// assert_eq!(shared.rows[0].share_spent, 1);
/// # Ok::<(), arbiter::Refused>(())
/// ```
///
/// # Errors
///
/// Refusals 1 to 13, 24, 26, 27 and 28, whatever the rounds are; and 16 and 18 where a bid is refused, which ends the trial: both only for a map that isn't the set's own.
/// None of them leaves anything of what was counted before.
///
/// # Panics
///
/// If the linked library isn't the one that belongs to this crate.
pub fn trial(set: &[u32], map: &[u8], order: &[u8], rounds: u16, settings: Settings) -> Result<Trial, Refused> {
    version::check();
    let Settings { share, window } = settings;
    // SAFETY: as in `read`.
    let trial = unsafe { sys::arbiter_trial(set.as_ptr(), set.len(), map.as_ptr(), map.len(), order.as_ptr(), order.len(), rounds, share, window) };
    let sys::Trial { answer, rows, finished } = trial;
    match answer.kind {
        sys::TRIED => Ok(Trial { made: answer.value, rows: rows.map(Tally::from), finished }),
        _ => Err(refused("arbiter_trial", answer)),
    }
}
