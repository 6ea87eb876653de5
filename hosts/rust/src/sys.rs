//! The library as it is: the calls of `include/arbiter.h`, its six structs and every number by name.
//!
//! Nothing here is safe to call without reading `docs/HOSTS.md`; the crate's root has the safe interface. A caller from here looks first whether
//! `arbiter_version` answers `VERSION`: the structs may differ from one version to the next.

use core::mem::{offset_of, size_of};

/// A position for each of the eight tasks, the grant number, and for each task its grants in the present window; 0 for absent tasks.
#[repr(C)]
#[derive(Clone, Copy, Debug, PartialEq, Eq)]
pub struct Record {
    pub positions: [u8; MAX_TASKS],
    pub grants: u32,
    pub counts: [u8; MAX_TASKS],
}

/// A position for each of the eight tasks, to question a stored plan with; those past the task count are unread.
#[repr(C)]
#[derive(Clone, Copy, Debug, PartialEq, Eq)]
pub struct State {
    pub positions: [u8; MAX_TASKS],
}

/// What a call answers: its kind, the refusal's number (0 without one), and a value: see the kinds.
#[must_use = "only GRANTED lets a task act, and a refused call has done nothing"]
#[repr(C)]
#[derive(Clone, Copy, Debug, PartialEq, Eq)]
pub struct Answer {
    pub kind: u32,
    pub refusal: u32,
    pub value: u64,
}

/// What an analysis answers, and beside it how much of the grid is unsafe: if it is `PLANNED`, 1,000 times the unsafe states divided by the permitted ones,
/// quotient and remainder. In a refused answer both are 0.
#[must_use = "a refused call has written no plan"]
#[repr(C)]
#[derive(Clone, Copy, Debug, PartialEq, Eq)]
pub struct Analysis {
    pub answer: Answer,
    pub quotient: u32,
    pub remainder: u32,
}

/// A task's row in a trial: how many of its bids were answered `GRANTED`, `BUSY`, `HELD` and `SHARE_SPENT`.
#[repr(C)]
#[derive(Clone, Copy, Debug, PartialEq, Eq)]
pub struct Tally {
    pub granted: u32,
    pub busy: u32,
    pub held: u32,
    pub share_spent: u32,
}

/// What a trial answers, and beside it a row for each task and how many bids were answered `FINISHED`; all of them 0 in a refused answer. It is
/// `arbiter_trial_result` in C, where a struct and a call can't share a name.
#[must_use = "it is all that the trial was for"]
#[repr(C)]
#[derive(Clone, Copy, Debug, PartialEq, Eq)]
pub struct Trial {
    pub answer: Answer,
    pub rows: [Tally; MAX_TASKS],
    pub finished: u64,
}

// The compiler must lay all six out as the library does.
const _: () = assert!(size_of::<Answer>() == 16);
const _: () = assert!(offset_of!(Answer, kind) == 0);
const _: () = assert!(offset_of!(Answer, refusal) == 4);
const _: () = assert!(offset_of!(Answer, value) == 8);
const _: () = assert!(size_of::<Analysis>() == 24);
const _: () = assert!(offset_of!(Analysis, answer) == 0);
const _: () = assert!(offset_of!(Analysis, quotient) == 16);
const _: () = assert!(offset_of!(Analysis, remainder) == 20);
const _: () = assert!(size_of::<Record>() == 20);
const _: () = assert!(offset_of!(Record, positions) == 0);
const _: () = assert!(offset_of!(Record, grants) == 8);
const _: () = assert!(offset_of!(Record, counts) == 12);
const _: () = assert!(size_of::<State>() == 8);
const _: () = assert!(offset_of!(State, positions) == 0);
const _: () = assert!(size_of::<Tally>() == 16);
const _: () = assert!(offset_of!(Tally, granted) == 0);
const _: () = assert!(offset_of!(Tally, busy) == 4);
const _: () = assert!(offset_of!(Tally, held) == 8);
const _: () = assert!(offset_of!(Tally, share_spent) == 12);
const _: () = assert!(size_of::<Trial>() == 152);
const _: () = assert!(offset_of!(Trial, answer) == 0);
const _: () = assert!(offset_of!(Trial, rows) == 16);
const _: () = assert!(offset_of!(Trial, finished) == 144);

extern "C" {
    pub fn arbiter_version() -> u32;
    pub fn arbiter_read(set: *const u32, set_len: usize) -> Answer;
    pub fn arbiter_analyse(set: *const u32, set_len: usize, map: *mut u8, map_len: usize, plan: *mut u32, plan_len: usize) -> Analysis;
    pub fn arbiter_fresh() -> Record;
    pub fn arbiter_bid(record: *mut Record, set: *const u32, set_len: usize, map: *const u8, map_len: usize, task: usize, share: u32, window: u32) -> Answer;
    pub fn arbiter_again(record: *mut Record, set: *const u32, set_len: usize) -> Answer;
    pub fn arbiter_route(record: Record, set: *const u32, set_len: usize, map: *const u8, map_len: usize, route: *mut u8, route_len: usize) -> Answer;
    pub fn arbiter_locate(state: State, plan: *const u32, plan_len: usize, tasks: usize) -> Answer;
    pub fn arbiter_clean(set: *const u32, set_len: usize, clean: *mut u32, clean_len: usize) -> Answer;
    pub fn arbiter_trial(
        set: *const u32,
        set_len: usize,
        map: *const u8,
        map_len: usize,
        order: *const u8,
        order_len: usize,
        rounds: u16,
        share: u32,
        window: u32,
    ) -> Trial;
}

// The version that this interface is of, and the library must be: major times 10,000, minor times 100, patch.
pub const VERSION: u32 = 60000;

// The kinds of an answer. A zeroed answer is a refusal.
pub const REFUSED: u32 = 0; // value: the refusal's place
pub const ACCEPTED: u32 = 1; // a set that is read; value: the grid, the number of its states
pub const PLANNED: u32 = 2; // value: the number of plan words; the parts per thousand stand beside the answer
pub const ROUTED: u32 = 3; // value: the route's length
pub const GRANTED: u32 = 4;
pub const FINISHED: u32 = 5;
pub const BUSY: u32 = 6; // value: the device that the next action names, without its units
pub const HELD: u32 = 7; // value: the next state's rank
pub const RESTARTED: u32 = 8;
pub const IN_FORBIDDEN_BOX: u32 = 9; // value: the index of the box's first word
pub const IN_UNSAFE_BOX: u32 = 10; // likewise
pub const IN_NO_BOX: u32 = 11;
pub const CLEANED: u32 = 12; // value: the number of words of the cleaned set
pub const SHARE_SPENT: u32 = 13;
pub const TRIED: u32 = 14; // value: the number of bids made; the rows stand beside the answer

// The limits of a set.
pub const MAX_WORDS: usize = 4096;
pub const MAX_DEVICES: usize = 16;
pub const MAX_CAPACITY: u32 = 8;
pub const MAX_TASKS: usize = 8;
pub const MAX_ACTIONS: u8 = 255;
pub const MAX_GRID: u32 = 65536;

// The largest share and the largest window of a bid or a trial; the smallest of each is 1.
pub const MAX_SETTING: u32 = 255;

// The longest order of a trial; the shortest has one task.
pub const MAX_ORDER: usize = 255;

// A word is its kind times this, plus its field.
pub const FIELDS: u32 = 0x1000_0000;

// A CLAIM's field is its extra units, a number less than EXTRA_UNITS, times DEVICES, plus its device.
pub const DEVICES: u32 = 0x1_0000;
pub const EXTRA_UNITS: u32 = 0x100;

// The kinds of a set's words; a plan ends with END too.
pub const DEVICE: u32 = 1;
pub const TASK: u32 = 2;
pub const CLAIM: u32 = 3; // bits 23 to 16 of the field: the extra units, 0 for one unit; 15 to 0: the device
pub const RELEASE: u32 = 4;
pub const END: u32 = 5;

// The kinds of a plan's words.
pub const FORBIDDEN_BOX: u32 = 6;
pub const UNSAFE_BOX: u32 = 7;
pub const SIDE: u32 = 8;
pub const DEAD_STATE: u32 = 9; // a dead state to which allowed steps lead from the start
pub const UNREACHED_STATE: u32 = 10; // a dead state that no run can enter

// The map's bytes.
pub const OPEN: u8 = 0;
pub const FORBIDDEN: u8 = 1;
pub const UNSAFE: u8 = 2;
pub const DEAD: u8 = 3;

// What a refused route leaves in every byte of its slice.
pub const NO_STEP: u8 = 255;

// The refusals of a set. UNCLAIMED_DEVICE comes before GRID_TOO_LARGE, TOO_MANY_UNITS before CLAIM_OF_HELD.
pub const NO_WORDS: u8 = 1;
pub const TOO_MANY_WORDS: u8 = 2;
pub const WORD_AFTER_END: u8 = 3;
pub const UNKNOWN_KIND: u8 = 4;
pub const OUT_OF_ORDER: u8 = 5;
pub const FIELD_NOT_ALLOWED: u8 = 6;
pub const TOO_MANY: u8 = 7;
pub const CLAIM_OF_HELD: u8 = 8;
pub const RELEASE_OF_NOT_HELD: u8 = 9;
pub const STILL_HELD: u8 = 10;
pub const NO_END: u8 = 11;
pub const GRID_TOO_LARGE: u8 = 12;
pub const UNCLAIMED_DEVICE: u8 = 24;
pub const TOO_MANY_UNITS: u8 = 28;

// The refusals of lent slices, input bytes, records and calls.
pub const MAP_TOO_SHORT: u8 = 13;
pub const PLAN_TOO_SHORT: u8 = 14;
pub const BYTES_NOT_WORDS: u8 = 15;
pub const BAD_RECORD: u8 = 16;
pub const NO_SUCH_TASK: u8 = 17;
pub const BAD_MAP_BYTE: u8 = 18;
pub const NOT_AT_END: u8 = 19;
pub const NO_ROUTE: u8 = 20;
pub const ROUTE_TOO_SHORT: u8 = 21;
pub const CLEAN_TOO_SHORT: u8 = 25;
pub const BAD_SETTING: u8 = 26;
pub const BAD_ORDER: u8 = 27;

// The refusals of a stored plan.
pub const BAD_TASK_COUNT: u8 = 22;
pub const OUTSIDE_LAYOUT: u8 = 23;
