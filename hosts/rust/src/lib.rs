//! The console arbiter for hosts in Rust: safe calls into the proved library `libarbiter.a`.
//!
//! A set is a list of 32-bit words that says which devices there are and in which order each task claims and releases them
//! (`docs/AUTHORS.md`). [`Analysed`] is a set with its map, a byte for each state of progress, and its plan, a list of boxes. [`Service`] is
//! asked for a bid before every step of a task and says whether it may be made now. [`Settings`] say how large a share of the grants a task may have while
//! others could go on; [`Analysed::trial`] says beforehand what they do. `docs/HOSTS.md` tells the whole life of a set.
//!
//! ```
//! # #[cfg(feature = "alloc")] {
//! use arbiter::{Action, Analysed, BidAnswer, Service, Settings};
//!
//! // Two tasks that take two devices in opposite order.
//! let set = [
//!     0x10000001, 0x10000001, 0x20000000, 0x30000000, 0x30000001, 0x40000001, 0x40000000, 0x20000000, 0x30000001, 0x30000000,
//!     0x40000000, 0x40000001, 0x5000000C,
//! ];
//! let mut service = Service::start(Analysed::new(set)?);
//! // Of every two grants each task has one, as far as both can go on.
//! let settings = Settings::new(1, 2);
//!
//! assert_eq!(service.bid(0, settings)?, BidAnswer::Granted);
//! assert_eq!(service.state().last_action(0), Some(Action::Claim { device: 0, units: 1 }));
//! assert_eq!(service.bid(1, settings)?, BidAnswer::Held { rank: 6 });
//! // Its share is spent, but nobody else can go on. With this grant the window is over.
//! assert_eq!(service.bid(0, settings)?, BidAnswer::Granted);
//! assert_eq!(service.bid(1, settings)?, BidAnswer::Busy { device: 1 });
//! assert_eq!(service.bid(0, settings)?, BidAnswer::Granted);
//! // Now task 1 could go on, and has its share left.
//! assert_eq!(service.bid(0, settings)?, BidAnswer::ShareSpent);
//! # }
//! # Ok::<(), arbiter::Refused>(())
//! ```
//!
//! Only an analysis makes an [`Analysed`], and a [`Service`] owns one together with its record, so no bid is ever asked of another map, set or
//! record. Both need a heap. The calls over slices that the caller lends are in [`plain`], which says what they trust; [`Set`], [`State`] and
//! [`Plan`] read words for either. [`Plan::locate`] questions a plan that was stored, without its set. [`cleaned`] and [`Set::clean`] mend a set that was stored
//! with devices which no task claims, and is now refused.
//!
//! The library has no state of its own, so every call may be made from any thread. What must not be shared is what Rust doesn't let one share:
//! a bid takes `&mut self`. An analysis needs some 300 KiB of stack.
//!
//! The linked library must be of this crate's version, [`sys::VERSION`]. That is looked at before anything is lent, and another one makes the call
//! panic: it is a fault of the build, which no input brings about and no caller could do anything about.
//!
//! # Features
//!
//! `std`, which is on by default, adds `std::error::Error` for [`Refused`] to `alloc`. `alloc` has [`Analysed`], [`Service`], [`words_of`] and [`cleaned`].
//! Without either the crate needs `core` alone.

#![no_std]
#![deny(missing_docs)]
// Without a heap these pages speak of Analysed, Service and the like all the same, and have nothing to link to.
#![cfg_attr(not(feature = "alloc"), allow(rustdoc::broken_intra_doc_links))]

// The kin of Linux: neither x32, which has short pointers, nor Cygwin and Apple, which have another convention and other archives.
#[cfg(not(all(target_arch = "x86_64", target_pointer_width = "64", unix, not(target_os = "cygwin"), not(target_vendor = "apple"))))]
compile_error!("libarbiter.a is made for x86-64 with the System V calling convention");

#[cfg(feature = "alloc")]
extern crate alloc;
#[cfg(feature = "std")]
extern crate std;

// The numbers there are named as in include/arbiter.h, which says what each means.
#[allow(missing_docs)]
pub mod sys;

#[cfg(feature = "alloc")]
mod analysed;
mod answers;
mod cleaning;
pub mod plain;
mod plan;
mod record;
#[cfg(feature = "alloc")]
mod service;
mod set;
mod settings;
mod state;
mod trial;
mod version;
mod words;

#[cfg(feature = "alloc")]
pub use analysed::Analysed;
pub use answers::{BidAnswer, Location, NoSuchRefusal, PerThousand, Planned, Refused};
#[cfg(feature = "alloc")]
pub use cleaning::cleaned;
pub use cleaning::is_claimed;
pub use plan::{BoxKind, Plan, PlanBox};
pub use record::{Counts, Positions, Record};
#[cfg(feature = "alloc")]
pub use service::Service;
pub use set::{Action, Set};
pub use settings::Settings;
pub use state::State;
pub use trial::{Tally, Trial};
#[cfg(feature = "alloc")]
pub use words::words_of;

use core::fmt;

/// Why a call was turned back (`docs/SCOPE.md`, "Refusals"). What the place beside it means is said at each; a word's index counts from 0.
///
/// A later version may bring more of them, with calls that this one doesn't have.
#[repr(u8)]
#[non_exhaustive]
#[derive(Clone, Copy, Debug, PartialEq, Eq, Hash)]
pub enum Refusal {
    /// The set has no words; the place is 0.
    NoWords = sys::NO_WORDS,
    /// The set has over 4,096 words; the place is 4,096.
    TooManyWords = sys::TOO_MANY_WORDS,
    /// A word follows END; the place is its index.
    WordAfterEnd = sys::WORD_AFTER_END,
    /// A word's kind isn't 1 to 5; the place is its index.
    UnknownKind = sys::UNKNOWN_KIND,
    /// A DEVICE after a TASK, or a CLAIM, RELEASE or END before any; the place is the word's index.
    OutOfOrder = sys::OUT_OF_ORDER,
    /// A word's field isn't allowed; the place is its index. In a CLAIM that is a device which isn't declared, or a bit from 27 to 24.
    FieldNotAllowed = sys::FIELD_NOT_ALLOWED,
    /// The 17th device, the 9th task or the 256th action of a task; the place is the word's index.
    TooMany = sys::TOO_MANY,
    /// A claim of a device that the task holds; the place is the word's index.
    ClaimOfHeld = sys::CLAIM_OF_HELD,
    /// A release of a device that the task doesn't hold; the place is the word's index.
    ReleaseOfNotHeld = sys::RELEASE_OF_NOT_HELD,
    /// A task closes, at the next TASK or at END, while it holds something; the place is that word's index.
    StillHeld = sys::STILL_HELD,
    /// There is no END; the place is the number of words.
    NoEnd = sys::NO_END,
    /// The set has over 65,536 states; the place is END's index.
    GridTooLarge = sys::GRID_TOO_LARGE,
    /// The map slice is shorter than the number of states, which is the place.
    MapTooShort = sys::MAP_TOO_SHORT,
    /// The plan slice is shorter than the plan; the place is the slice's length. The map is finished all the same.
    PlanTooShort = sys::PLAN_TOO_SHORT,
    /// The number of bytes isn't a multiple of 4; the place is the number of whole words. Only [`words_of`] answers it.
    BytesNotWords = sys::BYTES_NOT_WORDS,
    /// The record isn't one that a service of this set and map leaves; in a bid also if its counts together aren't less than the window. The place is 0.
    BadRecord = sys::BAD_RECORD,
    /// The set has no such task; the place is the number that was asked for.
    NoSuchTask = sys::NO_SUCH_TASK,
    /// The map is damaged or isn't the set's; the place is the state's rank where it shows.
    BadMapByte = sys::BAD_MAP_BYTE,
    /// Again was asked for before every task is finished; the place is the state's rank.
    NotAtEnd = sys::NOT_AT_END,
    /// No steps lead from the record's state to the end; the place is its rank.
    NoRoute = sys::NO_ROUTE,
    /// The route slice is shorter than the route, whose length is the place.
    RouteTooShort = sys::ROUTE_TOO_SHORT,
    /// The task count isn't 1 to 8; the place is 0.
    BadTaskCount = sys::BAD_TASK_COUNT,
    /// The words aren't a plan for so many tasks; the place is the index of the first word that no plan has there, or the number of words if END is missing.
    OutsideLayout = sys::OUTSIDE_LAYOUT,
    /// No task claims the device whose number is the place, the lowest such; looked at before [`GridTooLarge`](Refusal::GridTooLarge). [`plain::clean`] mends it.
    UnclaimedDevice = sys::UNCLAIMED_DEVICE,
    /// The slice is shorter than the cleaned set, whose length is the place.
    CleanTooShort = sys::CLEAN_TOO_SHORT,
    /// The share or the window of a bid or a trial isn't 1 to 255; the place is 0.
    BadSetting = sys::BAD_SETTING,
    /// A trial's order is empty, and the place is 0; or the place is the first in it that names a task which the set doesn't have, or is 255, which no order has.
    BadOrder = sys::BAD_ORDER,
    /// A claim of more units than the device has; the place is the word's index. Looked at before [`ClaimOfHeld`](Refusal::ClaimOfHeld).
    TooManyUnits = sys::TOO_MANY_UNITS,
}

impl Refusal {
    /// All refusals by rising number, from 1.
    pub const ALL: [Refusal; 28] = [
        Refusal::NoWords,
        Refusal::TooManyWords,
        Refusal::WordAfterEnd,
        Refusal::UnknownKind,
        Refusal::OutOfOrder,
        Refusal::FieldNotAllowed,
        Refusal::TooMany,
        Refusal::ClaimOfHeld,
        Refusal::ReleaseOfNotHeld,
        Refusal::StillHeld,
        Refusal::NoEnd,
        Refusal::GridTooLarge,
        Refusal::MapTooShort,
        Refusal::PlanTooShort,
        Refusal::BytesNotWords,
        Refusal::BadRecord,
        Refusal::NoSuchTask,
        Refusal::BadMapByte,
        Refusal::NotAtEnd,
        Refusal::NoRoute,
        Refusal::RouteTooShort,
        Refusal::BadTaskCount,
        Refusal::OutsideLayout,
        Refusal::UnclaimedDevice,
        Refusal::CleanTooShort,
        Refusal::BadSetting,
        Refusal::BadOrder,
        Refusal::TooManyUnits,
    ];

    /// The refusal's number in `docs/SCOPE.md`, "Refusals"; `TryFrom<u8>` goes the other way.
    pub fn number(self) -> u8 {
        self as u8
    }

    /// What it means, as a sentence for the author of the set or the reader of a log; `arbiter_refusal_text` in C.
    pub fn text(self) -> &'static str {
        match self {
            Refusal::NoWords => "the set is empty",
            Refusal::TooManyWords => "the set has over 4,096 words",
            Refusal::WordAfterEnd => "a word follows END, which must be the last",
            Refusal::UnknownKind => "this word is no DEVICE, TASK, CLAIM, RELEASE or END: its kind isn't 1 to 5",
            Refusal::OutOfOrder => "this word is out of order: devices come first, and a TASK before any CLAIM, RELEASE or END",
            Refusal::FieldNotAllowed => {
                "the field isn't allowed: a capacity is 1 to 8, TASK has 0, an action names a declared device, only a CLAIM has units, END counts the words before it"
            }
            Refusal::TooMany => "this is one too many: a set has at most 16 devices and 8 tasks, a task at most 255 claims and releases",
            Refusal::ClaimOfHeld => "the task claims a device that it holds already",
            Refusal::ReleaseOfNotHeld => "the task releases a device that it doesn't hold",
            Refusal::StillHeld => "a task ends here while it still holds a device",
            Refusal::NoEnd => "END is missing: it must be the last word",
            Refusal::GridTooLarge => "the tasks have over 65,536 states together: fewer or shorter tasks are needed",
            Refusal::MapTooShort => "the map slice is shorter than the set's number of states",
            Refusal::PlanTooShort => "the plan has more words than its slice",
            Refusal::BytesNotWords => "the number of bytes isn't a multiple of 4: the file was cut, or isn't a set",
            Refusal::BadRecord => {
                "the record doesn't fit the set and its map: it was damaged, or is another set's, or no analysis wrote the map; or its counts reach the window"
            }
            Refusal::NoSuchTask => "the set has no task of this number",
            Refusal::BadMapByte => "the map isn't the one made for this set: it was damaged, or is another set's",
            Refusal::NotAtEnd => "not every task is finished",
            Refusal::NoRoute => "no steps lead from this state to the end",
            Refusal::RouteTooShort => "the route has more steps than its slice has bytes",
            Refusal::BadTaskCount => "a plan is for 1 to 8 tasks",
            Refusal::OutsideLayout => "no plan for so many tasks goes on like this: it was cut or damaged, or is for another number of tasks",
            Refusal::UnclaimedDevice => {
                "no task claims this device: mend the claim that should name it, or let 'clean < OLDFILE > NEWFILE' take such devices out"
            }
            Refusal::CleanTooShort => "the cleaned set has more words than its slice",
            Refusal::BadSetting => "the share or the window is outside 1 to 255",
            Refusal::BadOrder => "the order of a trial is empty, names a task here that the set doesn't have, or goes on after 255 tasks",
            Refusal::TooManyUnits => "the task claims more units than the device has: claim fewer, or give the device a larger capacity",
        }
    }
}

impl fmt::Display for Refusal {
    fn fmt(&self, to: &mut fmt::Formatter<'_>) -> fmt::Result {
        to.write_str(self.text())
    }
}
