//! The sets of the desk examples (`docs/SCOPE.md`, "Desk examples") and what several tests ask for.
#![allow(dead_code)] // No test uses all of it.

use arbiter::{PerThousand, Planned, Refusal, Refused};

/// Example a: two tasks that take two devices in opposite order.
pub const A: [u32; 13] = [
    0x10000001, 0x10000001, 0x20000000, 0x30000000, 0x30000001, 0x40000001, 0x40000000, 0x20000000, 0x30000001, 0x30000000, 0x40000000, 0x40000001, 0x5000000C,
];

/// How many states it has.
pub const STATES: usize = 25;

/// Its plan.
pub const PLAN: [u32; 11] =
    [0x60000000, 0x80000103, 0x80010202, 0x60000001, 0x80000202, 0x80010103, 0x70000000, 0x80000101, 0x80010101, 0x90000006, 0x5000000A];

/// Example d: three devices, and two tasks with two unsafe boxes.
pub const D: [u32; 18] = [
    0x10000001, 0x10000001, 0x10000001, 0x20000000, 0x30000002, 0x30000000, 0x40000002, 0x30000001, 0x40000001, 0x40000000, 0x20000000, 0x30000001, 0x30000002,
    0x40000002, 0x30000000, 0x40000000, 0x40000001, 0x50000011,
];

/// Example e: three tasks that claim and release one device of capacity 2.
pub const E: [u32; 11] = [0x10000002, 0x20000000, 0x30000000, 0x40000000, 0x20000000, 0x30000000, 0x40000000, 0x20000000, 0x30000000, 0x40000000, 0x5000000A];

/// Three devices, and two tasks with two dead states, of which only one is reached; and its plan. It has as many states as `U`.
pub const R: [u32; 20] = [
    0x10000001, 0x10000001, 0x10000001, 0x20000000, 0x30000001, 0x30000000, 0x30000002, 0x40000001, 0x30000001, 0x40000000, 0x40000001, 0x40000002, 0x20000000,
    0x30000001, 0x30000000, 0x40000000, 0x30000002, 0x40000002, 0x40000001, 0x50000013,
];
pub const R_PLAN: [u32; 18] = [
    0x60000000, 0x80000205, 0x80010202, 0x60000001, 0x80000103, 0x80010105, 0x60000001, 0x80000506, 0x80010105, 0x60000002, 0x80000307, 0x80010404, 0x70000000,
    0x80000304, 0x80010103, 0x9000001D, 0xA000001F, 0x50000011,
];

/// Three devices, and two tasks whose only dead state isn't reached; and its plan.
pub const U: [u32; 20] = [
    0x10000001, 0x10000001, 0x10000001, 0x20000000, 0x30000002, 0x30000001, 0x40000002, 0x30000000, 0x40000001, 0x40000000, 0x20000000, 0x30000002, 0x30000001,
    0x40000001, 0x30000000, 0x30000001, 0x40000002, 0x40000001, 0x40000000, 0x50000013,
];
pub const U_PLAN: [u32; 17] = [
    0x60000000, 0x80000405, 0x80010407, 0x60000001, 0x80000204, 0x80010202, 0x60000001, 0x80000204, 0x80010506, 0x60000002, 0x80000102, 0x80010105, 0x70000000,
    0x80000203, 0x80010404, 0xA000001F, 0x50000010,
];

/// How many states R and U have, each.
pub const STATES_OF_R: usize = 63;

/// A gateway of three channels, and tasks that claim three, two, one and one of them together.
pub const GATEWAY: [u32; 14] = [
    0x10000003, 0x20000000, 0x30020000, 0x40000000, 0x20000000, 0x30010000, 0x40000000, 0x20000000, 0x30000000, 0x40000000, 0x20000000, 0x30000000, 0x40000000,
    0x5000000D,
];

/// An analysis that is accepted: the number of plan words, and the parts per thousand.
pub fn planned(words: usize, quotient: u32, remainder: u32) -> Result<Planned, Refused> {
    Ok(Planned { words, per_thousand: PerThousand { quotient, remainder } })
}

pub fn refused<T>(refusal: Refusal, place: usize) -> Result<T, Refused> {
    Err(Refused { refusal, place })
}

/// A set of one device of this capacity and tasks that claim and release it so many times.
pub fn users_of_one_device(capacity: u32, times: &[usize]) -> Vec<u32> {
    let mut set = vec![0x10000000 + capacity];
    for &times in times {
        set.push(0x20000000);
        set.extend([0x30000000, 0x40000000].repeat(times));
    }
    set.push(0x50000000 + set.len() as u32);
    set
}
