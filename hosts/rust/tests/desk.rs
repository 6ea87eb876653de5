//! The desk examples a, b, c and l (`docs/SCOPE.md`, "Desk examples") and each refusal that a call gives, through the plain calls.

mod sets;

use arbiter::plain::{self, again, analyse, read, route, trial, NOT_ANALYSED};
use arbiter::{sys, BidAnswer, Record, Refusal, Refused, Settings};
use sets::{planned, refused, users_of_one_device, A, PLAN, R, R_PLAN, STATES, STATES_OF_R, U, U_PLAN};

fn map_of_a() -> [u8; STATES] {
    let mut map = [NOT_ANALYSED; STATES];
    assert_eq!(analyse(&A, &mut map, &mut [0; PLAN.len()]), planned(11, 50, 0));
    map
}

/// A record at these positions of the first two tasks.
fn at(first: u8, second: u8) -> Record {
    Record::new([first, second, 0, 0, 0, 0, 0, 0], 0, [0; 8])
}

/// A bid as examples b and l have it, with 255 for share and window.
fn bid(record: &mut Record, set: &[u32], map: &[u8], task: usize) -> Result<BidAnswer, Refused> {
    plain::bid(record, set, map, task, Settings::OFF)
}

#[test]
fn example_a_is_planned_and_the_rest_of_the_slices_stays() {
    let mut map = [NOT_ANALYSED; STATES + 1];
    let mut plan = [0xAAAA_AAAA; 12];
    assert_eq!(read(&A), Ok(STATES));
    assert_eq!(analyse(&A, &mut map, &mut plan), planned(11, 50, 0));
    assert_eq!(plan[..11], PLAN);
    assert_eq!(plan[11..], [0xAAAA_AAAA]);
    // A row for each position of task 0, a column for each of task 1.
    #[rustfmt::skip]
    assert_eq!(
        map,
        [
            0, 0, 0, 0, 0,
            0, 3, 1, 0, 0,
            0, 1, 1, 1, 0,
            0, 0, 1, 0, 0,
            0, 0, 0, 0, 0,
            NOT_ANALYSED
        ]
    );
}

#[test]
fn dead_states_that_are_not_reached_come_last_and_count_for_the_slice() {
    // R has 2 unsafe states of 35, U 1 of 40; all are dead.
    for (set, plan, quotient, remainder) in [(R, &R_PLAN[..], 57, 5), (U, &U_PLAN, 25, 0)] {
        let (mut map, mut words) = ([NOT_ANALYSED; STATES_OF_R], vec![0xAAAA_AAAA; plan.len() + 1]);
        assert_eq!(analyse(&set, &mut map, &mut words), planned(plan.len(), quotient, remainder));
        assert_eq!(words[..plan.len()], *plan);
        assert_eq!(words[plan.len()..], [0xAAAA_AAAA]);
        let dead: Vec<usize> = (0..STATES_OF_R).filter(|&rank| map[rank] == sys::DEAD).collect();
        let listed: Vec<usize> = plan.iter().filter(|&&word| word >= 0x9000_0000).map(|&word| (word & 0x0FFF_FFFF) as usize).collect();
        assert_eq!(dead, listed);
        for short in [plan.len() - 1, plan.len() - 2, 0] {
            let mut words = vec![0xAAAA_AAAA; short];
            assert_eq!(analyse(&set, &mut map, &mut words), refused(Refusal::PlanTooShort, short));
            assert_eq!(words, vec![0; short]);
        }
    }
}

#[test]
fn example_b_answers_six_bids() {
    let map = map_of_a();
    let mut record = Record::fresh();
    let answers = [0, 1, 0, 1, 0, 1].map(|task| bid(&mut record, &A, &map, task).unwrap());
    assert_eq!(
        answers,
        [BidAnswer::Granted, BidAnswer::Held { rank: 6 }, BidAnswer::Granted, BidAnswer::Busy { device: 1 }, BidAnswer::Granted, BidAnswer::Granted]
    );
    assert_eq!(record, Record::new([3, 1, 0, 0, 0, 0, 0, 0], 4, [3, 1, 0, 0, 0, 0, 0, 0]));
}

#[test]
fn example_c_is_routed_and_the_rest_of_the_slice_stays() {
    let mut steps = [0xAA; 8];
    assert_eq!(route(&at(0, 1), &A, &map_of_a(), &mut steps), Ok(7));
    assert_eq!(steps, [1, 1, 0, 1, 0, 0, 0, 0xAA]);
}

#[test]
fn example_l_wraps_the_grant_number() {
    let mut record = Record::new([0; 8], 0xFFFF_FFFF, [0; 8]);
    assert_eq!(bid(&mut record, &A, &map_of_a(), 0), Ok(BidAnswer::Granted));
    assert_eq!(record, Record::new([1, 0, 0, 0, 0, 0, 0, 0], 0, [1, 0, 0, 0, 0, 0, 0, 0]));
}

#[test]
fn rounds_bring_every_task_home_and_again_keeps_the_grants_and_clears_the_counts() {
    let map = map_of_a();
    let mut record = Record::fresh();
    let mut granted = 0;
    for _ in 0..8 {
        for task in 0..2 {
            granted += u32::from(bid(&mut record, &A, &map, task) == Ok(BidAnswer::Granted));
        }
    }
    assert_eq!(granted, 8);
    assert_eq!(record, Record::new([4, 4, 0, 0, 0, 0, 0, 0], 8, [4, 4, 0, 0, 0, 0, 0, 0]));
    assert_eq!(bid(&mut record, &A, &map, 0), Ok(BidAnswer::Finished));
    assert_eq!(again(&mut record, &A), Ok(()));
    assert_eq!(record, Record::new([0; 8], 8, [0; 8]));
}

#[test]
fn faulty_sets_are_refused_by_every_call_and_change_nothing() {
    // Two tasks of 254 actions pass; a third of 2 makes the grid too large.
    let third_of_two = users_of_one_device(2, &[127, 127, 1]);
    // With a device that no task claims, that is told before the grid, and after a missing END.
    let mut unclaimed_besides = third_of_two.clone();
    unclaimed_besides.insert(1, 0x10000001);
    *unclaimed_besides.last_mut().unwrap() += 1;
    let cases: [(&[u32], Refusal, usize); 17] = [
        (&[], Refusal::NoWords, 0),
        (&[0; 4097], Refusal::TooManyWords, 4096),
        (&[0x20000000, 0x50000001, 0x50000002], Refusal::WordAfterEnd, 2),
        (&[0xF0000000], Refusal::UnknownKind, 0),
        (&[0x30000000], Refusal::OutOfOrder, 0),
        (&[0x10000009], Refusal::FieldNotAllowed, 0),
        (&[0x10000001; 17], Refusal::TooMany, 16),
        (&[0x10000001, 0x20000000, 0x30000000, 0x30000000], Refusal::ClaimOfHeld, 3),
        (&[0x10000001, 0x20000000, 0x40000000], Refusal::ReleaseOfNotHeld, 2),
        (&[0x10000001, 0x20000000, 0x30000000, 0x50000003], Refusal::StillHeld, 3),
        (&[0x20000000], Refusal::NoEnd, 1),
        (&third_of_two, Refusal::GridTooLarge, third_of_two.len() - 1),
        (&[0x20000000; 9], Refusal::TooMany, 8),
        (&[0x10000008, 0x20000000, 0x50000002], Refusal::UnclaimedDevice, 0),
        (&[0x10000001, 0x10000001, 0x10000001, 0x20000000, 0x30000000, 0x40000000, 0x50000006], Refusal::UnclaimedDevice, 1),
        (&unclaimed_besides, Refusal::UnclaimedDevice, 1),
        (&[0x10000001, 0x20000000], Refusal::NoEnd, 2),
    ];
    for (set, refusal, place) in cases {
        let (mut map, mut plan, mut steps) = ([NOT_ANALYSED; 3], [0xAAAA_AAAA; 3], [0xAA; 3]);
        let mut record = at(1, 2);
        assert_eq!(read(set), refused(refusal, place));
        assert_eq!(analyse(set, &mut map, &mut plan), refused(refusal, place));
        assert_eq!(bid(&mut record, set, &map, 0), refused(refusal, place));
        assert_eq!(again(&mut record, set), refused(refusal, place));
        assert_eq!(route(&record, set, &map, &mut steps), refused(refusal, place));
        assert_eq!(trial(set, &map, &[0], 1, Settings::OFF), refused(refusal, place));
        assert_eq!((map, plan, steps), ([NOT_ANALYSED; 3], [0xAAAA_AAAA; 3], [sys::NO_STEP; 3]));
        assert_eq!(record, at(1, 2));
    }
}

#[test]
fn short_slices_are_refused() {
    let (mut map, mut plan) = ([NOT_ANALYSED; STATES - 1], [0xAAAA_AAAA; 10]);
    assert_eq!(analyse(&A, &mut map, &mut plan), refused(Refusal::MapTooShort, STATES));
    assert_eq!((map, plan), ([NOT_ANALYSED; STATES - 1], [0xAAAA_AAAA; 10]));

    let mut map = [NOT_ANALYSED; STATES];
    assert_eq!(analyse(&A, &mut map, &mut plan), refused(Refusal::PlanTooShort, 10));
    assert_eq!((map, plan), (map_of_a(), [0; 10]));
    assert_eq!(analyse(&A, &mut map, &mut []), refused(Refusal::PlanTooShort, 0));

    let mut record = Record::fresh();
    assert_eq!(bid(&mut record, &A, &map[1..], 0), refused(Refusal::MapTooShort, STATES));
    assert_eq!(bid(&mut record, &A, &[], 0), refused(Refusal::MapTooShort, STATES));

    let mut steps = [0xAA; 7];
    assert_eq!(route(&record, &A, &map, &mut steps), refused(Refusal::RouteTooShort, 8));
    assert_eq!(steps, [sys::NO_STEP; 7]);
}

#[test]
fn a_map_that_no_analysis_wrote_is_refused_at_the_first_bid() {
    let map = [NOT_ANALYSED; STATES];
    let mut record = Record::fresh();
    for task in 0..2 {
        assert_eq!(bid(&mut record, &A, &map, task), refused(Refusal::BadRecord, 0));
    }
    assert_eq!(record, Record::fresh());
    assert_eq!(route(&record, &A, &map, &mut [0; 8]), refused(Refusal::BadMapByte, 0));
}

#[test]
fn damaged_records_and_maps_are_refused() {
    let map = map_of_a();
    let mut steps = [0xAA; 8];

    // A position over the task's actions, one of an absent task, and a forbidden state.
    for positions in [[5, 0, 0, 0, 0, 0, 0, 0], [0, 0, 0, 0, 0, 0, 0, 1], [2, 2, 0, 0, 0, 0, 0, 0]] {
        let mut record = Record::new(positions, 7, [0; 8]);
        assert_eq!(bid(&mut record, &A, &map, 0), refused(Refusal::BadRecord, 0));
        assert_eq!(route(&record, &A, &map, &mut steps), refused(Refusal::BadRecord, 0));
        assert_eq!(record, Record::new(positions, 7, [0; 8]));
    }
    assert_eq!(again(&mut at(5, 0), &A), refused(Refusal::BadRecord, 0));

    let mut spoilt = map;
    spoilt[5] = 4;
    assert_eq!(bid(&mut at(0, 0), &A, &spoilt, 0), refused(Refusal::BadMapByte, 5));
    assert_eq!(route(&at(1, 0), &A, &spoilt, &mut steps), refused(Refusal::BadMapByte, 5));

    // The dead state: a bid finds a record that can't be, a route no way on.
    assert_eq!(bid(&mut at(1, 1), &A, &map, 0), refused(Refusal::BadRecord, 0));
    assert_eq!(route(&at(1, 1), &A, &map, &mut steps), refused(Refusal::NoRoute, 6));
}

#[test]
fn tasks_that_are_not_there_and_an_early_again_are_refused() {
    let map = map_of_a();
    let mut record = at(1, 0);
    assert_eq!(bid(&mut record, &A, &map, 2), refused(Refusal::NoSuchTask, 2));
    assert_eq!(bid(&mut record, &A, &map, usize::MAX), refused(Refusal::NoSuchTask, usize::MAX));
    assert_eq!(again(&mut record, &A), refused(Refusal::NotAtEnd, 5));
    assert_eq!(record, at(1, 0));
}
