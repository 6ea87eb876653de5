//! How much of the grid is unsafe, in parts per thousand: the desk examples by their numbers, other sets by counts over their maps, and that a refused analysis
//! tells nothing of it.

mod sets;

use arbiter::plain::{analyse, read, NOT_ANALYSED};
use arbiter::{sys, PerThousand};
use sets::{planned, users_of_one_device, A, D, E, PLAN, R, STATES, U};

const CLAIM: u32 = 0x30000000;
const RELEASE: u32 = 0x40000000;

/// Two tasks that cross over devices 0 and 1. Each turns so often with a device of its own before the crossing, and so often between its two claims.
fn crossing(before: usize, between: usize) -> Vec<u32> {
    let mut set = vec![0x10000001; if before + between > 0 { 4 } else { 2 }];
    for (first, second, own) in [(0, 1, 2), (1, 0, 3)] {
        let turns = |times: usize| [CLAIM + own, RELEASE + own].repeat(times);
        set.push(0x20000000);
        set.extend(turns(before));
        set.push(CLAIM + first);
        set.extend(turns(between));
        set.extend([CLAIM + second, RELEASE + second, RELEASE + first]);
    }
    set.push(0x50000000 + set.len() as u32);
    set
}

/// The parts per thousand and the map, in a slice that has so many bytes of this value more than the grid.
fn analysed(set: &[u32], longer: usize, beyond: u8) -> (PerThousand, Vec<u8>) {
    let grid = read(set).unwrap();
    let (mut map, mut plan) = (vec![NOT_ANALYSED; grid + longer], vec![0; 65_536]);
    map[grid..].fill(beyond);
    let planned = analyse(set, &mut map, &mut plan).unwrap();
    assert_eq!(map[grid..], vec![beyond; longer]);
    map.truncate(grid);
    (planned.per_thousand, map)
}

fn sets() -> [Vec<u32>; 11] {
    [
        A.to_vec(),
        D.to_vec(),
        E.to_vec(),
        R.to_vec(),
        U.to_vec(),
        vec![0x20000000, 0x50000001],
        users_of_one_device(1, &[1, 1, 1]),
        users_of_one_device(7, &[1; 8]),
        crossing(3, 2),
        crossing(20, 0),
        crossing(0, 125),
    ]
}

#[test]
fn the_numbers_of_the_desk_examples_and_of_few_and_many_unsafe_states() {
    let cases: [(&[u32], u32, u32); 6] = [
        (&A, 50, 0),                      // 1 of 20
        (&D, 153, 33),                    // 6 of 39
        (&E, 0, 0),                       // 0 of 26
        (&U, 25, 0),                      // 1 of 40, a dead state that isn't reached
        (&crossing(20, 0), 0, 1000),      // 1 of 2,020
        (&crossing(0, 125), 976, 29_480), // 63,001 of 64,520
    ];
    for (set, quotient, remainder) in cases {
        assert_eq!(analysed(set, 0, 0).0, PerThousand { quotient, remainder });
    }
}

#[test]
fn a_thousand_times_the_unsafe_states_is_what_the_numbers_say() {
    for set in sets() {
        let (PerThousand { quotient, remainder }, map) = analysed(&set, 0, 0);
        let count = |bytes: &[u8]| map.iter().filter(|byte| bytes.contains(byte)).count();
        let (unsafe_states, permitted) = (count(&[sys::UNSAFE, sys::DEAD]), count(&[sys::OPEN, sys::UNSAFE, sys::DEAD]));
        assert_eq!(1000 * unsafe_states, quotient as usize * permitted + remainder as usize);
        assert!((remainder as usize) < permitted && quotient <= 999);
        assert_eq!((quotient, remainder) == (0, 0), unsafe_states == 0);
    }
}

#[test]
fn bytes_beyond_the_grid_count_for_nothing() {
    for set in sets() {
        let alone = analysed(&set, 0, 0);
        for beyond in [sys::OPEN, sys::FORBIDDEN, sys::UNSAFE, sys::DEAD, 4, NOT_ANALYSED] {
            for longer in [1, 40, 1000, 65_536] {
                assert_eq!(analysed(&set, longer, beyond), alone);
            }
        }
    }
}

/// The whole answer of an analysis as the library gives it, with slices of these lengths.
fn whole_answer(set: &[u32], map_len: usize, plan_len: usize) -> sys::Analysis {
    let (mut map, mut plan) = (vec![NOT_ANALYSED; map_len], vec![0; plan_len]);
    // SAFETY: slices of a Vec are non-null and aligned, and overlap nothing.
    unsafe { sys::arbiter_analyse(set.as_ptr(), set.len(), map.as_mut_ptr(), map.len(), plan.as_mut_ptr(), plan.len()) }
}

fn nothing_told(refusal: u8, place: usize) -> sys::Analysis {
    let answer = sys::Answer { kind: sys::REFUSED, refusal: refusal.into(), value: place as u64 };
    sys::Analysis { answer, quotient: 0, remainder: 0 }
}

#[test]
fn a_refused_analysis_has_zeros() {
    assert_eq!(whole_answer(&[], 100, 100), nothing_told(sys::NO_WORDS, 0));
    assert_eq!(whole_answer(&A[..12], 100, 100), nothing_told(sys::NO_END, 12));
    assert_eq!(whole_answer(&[0x10000008, 0x20000000, 0x50000002], 100, 100), nothing_told(sys::UNCLAIMED_DEVICE, 0));
    assert_eq!(whole_answer(&users_of_one_device(2, &[127, 127, 1]), 100, 100), nothing_told(sys::GRID_TOO_LARGE, 514));
    for short in [0, 1, STATES - 1] {
        assert_eq!(whole_answer(&A, short, 100), nothing_told(sys::MAP_TOO_SHORT, STATES));
    }
    for short in [0, 1, 9, PLAN.len() - 1] {
        assert_eq!(whole_answer(&A, STATES, short), nothing_told(sys::PLAN_TOO_SHORT, short));
        assert_eq!(whole_answer(&A, STATES + 100, short), nothing_told(sys::PLAN_TOO_SHORT, short));
    }
    // And with room for all of it the numbers are there.
    let answer = sys::Answer { kind: sys::PLANNED, refusal: 0, value: PLAN.len() as u64 };
    assert_eq!(whole_answer(&A, STATES, PLAN.len()), sys::Analysis { answer, quotient: 50, remainder: 0 });
}

#[test]
fn a_longer_plan_slice_changes_nothing() {
    for room in [PLAN.len(), PLAN.len() + 1, 1000] {
        let (mut map, mut plan) = ([NOT_ANALYSED; STATES], vec![0; room]);
        assert_eq!(analyse(&A, &mut map, &mut plan), planned(PLAN.len(), 50, 0));
    }
}
