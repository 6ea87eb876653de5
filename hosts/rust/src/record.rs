//! The broker's record (`docs/SCOPE.md`, "Broker").

use crate::{sys, version};

/// How many actions each of the eight tasks has done; 0 for tasks that the set doesn't have.
pub type Positions = [u8; sys::MAX_TASKS];

/// How many grants each of the eight tasks has had in the present window; 0 for tasks that the set doesn't have.
pub type Counts = [u8; sys::MAX_TASKS];

/// The broker's record: how many actions each task has done, the number of grants, and how many of them each task has had in the present window.
///
/// In service there is one for a set, lent to every bid. It isn't `Copy`, so that no second one comes about by accident.
#[derive(Clone, Debug, PartialEq, Eq)]
pub struct Record(pub(crate) sys::Record);

/// Where the grant number starts in a stored record, and where the counts do.
const GRANTS: usize = sys::MAX_TASKS;
const COUNTS: usize = GRANTS + 4;

impl Record {
    /// How many bytes a stored record has.
    pub const BYTES: usize = 20;

    /// A record at the start of every task, with no grants and no counts.
    ///
    /// # Panics
    ///
    /// If the linked library is of another version than this crate.
    #[must_use]
    pub fn fresh() -> Record {
        version::check();
        // SAFETY: the call takes nothing.
        Record(unsafe { sys::arbiter_fresh() })
    }

    /// A record from its parts. Whether it fits a set and its map is looked at in every call: if not, the answer is
    /// [`BadRecord`](crate::Refusal::BadRecord).
    pub fn new(positions: Positions, grants: u32, counts: Counts) -> Record {
        Record(sys::Record { positions, grants, counts })
    }

    /// How many actions each task has done; 0 for tasks that the set doesn't have.
    pub fn positions(&self) -> Positions {
        self.0.positions
    }

    /// The number of grants so far, modulo 4,294,967,296.
    pub fn grants(&self) -> u32 {
        self.0.grants
    }

    /// How many grants each task has had in the present window; 0 for tasks that the set doesn't have.
    pub fn counts(&self) -> Counts {
        self.0.counts
    }

    /// How many grants the present window has had: the counts added up. A bid's window must be more than that.
    pub fn window_grants(&self) -> u32 {
        self.0.counts.map(u32::from).iter().sum()
    }

    /// The record as it is stored: the eight positions, then the grant number, lowest byte first, then the eight counts.
    pub fn to_bytes(&self) -> [u8; Record::BYTES] {
        let mut bytes = [0; Record::BYTES];
        bytes[..GRANTS].copy_from_slice(&self.0.positions);
        bytes[GRANTS..COUNTS].copy_from_slice(&self.0.grants.to_le_bytes());
        bytes[COUNTS..].copy_from_slice(&self.0.counts);
        bytes
    }

    /// The record that was stored as these bytes. No bytes are wrong by themselves: as with [`new`](Record::new), the calls look at what it is.
    ///
    /// Before 5.0.0 a stored record had 12 bytes, and no counts. It is the record of these 12 bytes with zeros behind them:
    ///
    /// ```
    /// use arbiter::Record;
    ///
    /// let stored: [u8; 12] = [3, 1, 0, 0, 0, 0, 0, 0, 4, 0, 0, 0];
    /// let mut bytes = [0; Record::BYTES];
    /// bytes[..stored.len()].copy_from_slice(&stored);
    /// assert_eq!(Record::from_bytes(bytes), Record::new([3, 1, 0, 0, 0, 0, 0, 0], 4, [0; 8]));
    /// ```
    pub fn from_bytes(bytes: [u8; Record::BYTES]) -> Record {
        let [p0, p1, p2, p3, p4, p5, p6, p7, a, b, c, d, counts @ ..] = bytes;
        Record::new([p0, p1, p2, p3, p4, p5, p6, p7], u32::from_le_bytes([a, b, c, d]), counts)
    }
}

impl Default for Record {
    /// A [`fresh`](Record::fresh) one.
    fn default() -> Record {
        Record::fresh()
    }
}
