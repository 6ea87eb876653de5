//! What can be read from a set, a state, a plan and a record, on the desk examples; and the texts.

mod sets;

use arbiter::{
    plain, sys, Action, BidAnswer, BoxKind, Location, NoSuchRefusal, PerThousand, Plan, Positions, Record, Refusal, Refused, Set, Settings, State, Tally,
};
use sets::{refused, A, D, E, PLAN, R, R_PLAN, STATES, STATES_OF_R, U, U_PLAN};
use std::ops::RangeInclusive;

const CLAIM_0: Action = Action::Claim { device: 0, units: 1 };
const CLAIM_1: Action = Action::Claim { device: 1, units: 1 };
const RELEASE_0: Action = Action::Release { device: 0 };
const RELEASE_1: Action = Action::Release { device: 1 };

fn set(words: &[u32]) -> Set<'_> {
    Set::read(words).unwrap()
}

/// The state of the set at these positions of its first tasks.
fn at<'a>(words: &'a [u32], first: &[u8]) -> State<'a> {
    let mut positions = [0; sys::MAX_TASKS];
    positions[..first.len()].copy_from_slice(first);
    set(words).state(positions).unwrap()
}

#[test]
fn a_set_tells_its_tasks_devices_and_actions() {
    let a = set(&A);
    assert_eq!((a.tasks(), a.devices(), a.states(), a.words()), (2, 2, STATES, &A[..]));
    assert_eq!(a.actions(0).collect::<Vec<_>>(), [CLAIM_0, CLAIM_1, RELEASE_1, RELEASE_0]);
    assert_eq!(a.actions(1).collect::<Vec<_>>(), [CLAIM_1, CLAIM_0, RELEASE_0, RELEASE_1]);
    assert_eq!(set(&D).capacities().collect::<Vec<_>>(), [1, 1, 1]);
    assert_eq!(set(&E).capacities().collect::<Vec<_>>(), [2]);
    for absent in [2, 8, usize::MAX] {
        assert_eq!(a.actions(absent).count(), 0);
    }

    let idle = [0x20000000, 0x20000000, 0x50000002];
    assert_eq!((set(&idle).tasks(), set(&idle).devices(), set(&idle).states()), (2, 0, 1));
    assert_eq!(set(&idle).actions(1).count(), 0);
    assert_eq!(Set::read(&A[..12]), refused(Refusal::NoEnd, 12));
}

#[test]
fn states_tell_the_last_and_the_next_action() {
    let state = at(&A, &[3, 1]);
    assert_eq!((state.last_action(0), state.next_action(0)), (Some(RELEASE_1), Some(RELEASE_0)));
    assert_eq!((state.last_action(1), state.next_action(1)), (Some(CLAIM_1), Some(CLAIM_0)));
    let start = at(&A, &[0, 0]);
    assert_eq!((start.last_action(0), start.next_action(0)), (None, Some(CLAIM_0)));
    let end = at(&A, &[4, 4]);
    assert_eq!((end.last_action(1), end.next_action(1)), (Some(RELEASE_1), None));
    for absent in [2, 8, usize::MAX] {
        assert_eq!((end.last_action(absent), end.next_action(absent)), (None, None));
    }
}

#[test]
fn states_tell_who_holds_what() {
    // Task 0 claims device 0 by its first action and releases it by its fourth, device 1 by its second and third.
    let held: [(bool, bool); 5] = std::array::from_fn(|position| {
        let state = at(&A, &[position as u8, 0]);
        (state.holds(0, 0), state.holds(0, 1))
    });
    assert_eq!(held, [(false, false), (true, false), (true, true), (true, false), (false, false)]);

    let state = at(&E, &[1, 0, 1]);
    assert_eq!(state.holders(0).collect::<Vec<_>>(), [0, 2]);
    assert_eq!(at(&E, &[2, 2, 1]).holders(0).collect::<Vec<_>>(), [2]);
    for absent in [3, 8, usize::MAX] {
        assert!(!state.holds(absent, 0) && !state.holds(0, absent));
        assert_eq!(state.holders(absent).count(), 0);
    }
}

#[test]
fn a_device_that_is_claimed_twice_is_held_twice() {
    let twice = [0x10000001, 0x20000000, 0x30000000, 0x40000000, 0x30000000, 0x40000000, 0x50000006];
    let held: [bool; 5] = std::array::from_fn(|position| at(&twice, &[position as u8]).holds(0, 0));
    assert_eq!(held, [false, true, false, true, false]);
}

#[test]
fn ranks_and_positions_go_both_ways() {
    assert_eq!(at(&A, &[1, 1]).rank(), 6);
    assert_eq!(set(&A).state_of_rank(6), Some(at(&A, &[1, 1])));
    assert_eq!(at(&E, &[1, 0, 2]).rank(), 11);
    for words in [&A[..], &D, &E] {
        let set = set(words);
        for rank in 0..set.states() {
            let state = set.state_of_rank(rank).unwrap();
            assert_eq!(state.rank(), rank);
            assert_eq!(set.state(state.positions()), Some(state));
        }
        for rank in [set.states(), set.states() + 1, usize::MAX] {
            assert_eq!(set.state_of_rank(rank), None);
        }
    }
    for positions in [[5, 0, 0, 0, 0, 0, 0, 0], [0, 5, 0, 0, 0, 0, 0, 0], [0, 0, 1, 0, 0, 0, 0, 0], [0, 0, 0, 0, 0, 0, 0, 1]] {
        assert_eq!(set(&A).state(positions), None);
    }
}

/// A plan's boxes with their sides.
fn boxes(plan: Plan) -> Vec<(BoxKind, Vec<RangeInclusive<u8>>)> {
    plan.boxes().map(|plan_box| (plan_box.kind, plan_box.sides().collect())).collect()
}

#[test]
fn the_boxes_and_dead_states_of_plans() {
    let plan = Plan::new(&PLAN);
    assert_eq!(plan.words(), PLAN);
    assert_eq!(
        boxes(plan),
        [(BoxKind::Forbidden { device: 0 }, vec![1..=3, 2..=2]), (BoxKind::Forbidden { device: 1 }, vec![2..=2, 1..=3]), (BoxKind::Unsafe, vec![1..=1, 1..=1])]
    );
    assert_eq!(dead_states(plan), (vec![6], vec![]));

    let mut words = [0; 64];
    let length = plain::analyse(&D, &mut [plain::NOT_ANALYSED; 49], &mut words).unwrap().words;
    let plan = Plan::new(&words[..length]);
    let unsafe_boxes: Vec<_> = boxes(plan).into_iter().filter(|(kind, _)| *kind == BoxKind::Unsafe).collect();
    assert_eq!(unsafe_boxes, [(BoxKind::Unsafe, vec![2..=3, 1..=3]), (BoxKind::Unsafe, vec![1..=1, 1..=1])]);
    assert_eq!(dead_states(plan), (vec![24], vec![]));

    let length = plain::analyse(&E, &mut [plain::NOT_ANALYSED; 27], &mut words).unwrap().words;
    assert_eq!(boxes(Plan::new(&words[..length])), [(BoxKind::Forbidden { device: 0 }, vec![1..=1, 1..=1, 1..=1])]);
}

/// A plan's dead states that are reached, and the others.
fn dead_states(plan: Plan) -> (Vec<usize>, Vec<usize>) {
    (plan.dead_states().collect(), plan.unreached_states().collect())
}

#[test]
fn dead_states_are_told_apart_by_whether_they_are_reached() {
    assert_eq!(dead_states(Plan::new(&R_PLAN)), (vec![29], vec![31]));
    assert_eq!(dead_states(Plan::new(&U_PLAN)), (vec![], vec![31]));
    for (set, expected) in [(R, (vec![29], vec![31])), (U, (vec![], vec![31]))] {
        let mut words = [0; 64];
        let length = plain::analyse(&set, &mut [plain::NOT_ANALYSED; STATES_OF_R], &mut words).unwrap().words;
        assert_eq!(dead_states(Plan::new(&words[..length])), expected);
    }
    // Of either kind any number, each in its order, whatever the other has.
    let words = [0x90000002, 0x90000007, 0xA0000000, 0xA0000002, 0xAFFFFFFF, 0x50000005];
    assert_eq!(dead_states(Plan::new(&words)), (vec![2, 7], vec![0, 2, 0x0FFF_FFFF]));
}

#[test]
fn a_plan_without_boxes_or_sides_is_read_to_its_end() {
    assert_eq!(boxes(Plan::new(&[0x50000000])), []);
    assert_eq!(boxes(Plan::new(&[])), []);
    // No plan at all: nothing is said of it, but that nothing else happens.
    assert_eq!(boxes(Plan::new(&[0x80000000, 0x70000000])), [(BoxKind::Unsafe, vec![])]);
}

#[test]
fn a_box_is_had_by_the_index_of_its_first_word() {
    let plan = Plan::new(&PLAN);
    let starts: Vec<usize> = (0..PLAN.len()).filter(|&index| plan.box_at(index).is_some()).collect();
    assert_eq!(starts, [0, 3, 6]);
    assert!(plan.boxes().eq(starts.into_iter().map(|index| plan.box_at(index).unwrap())));
    for beyond in [PLAN.len(), PLAN.len() + 1, usize::MAX] {
        assert_eq!(plan.box_at(beyond), None);
    }
}

/// The boxes hold the states whose map byte they say, on the states of a whole set.
#[test]
fn the_boxes_of_d_cover_its_map() {
    let (mut map, mut words) = ([plain::NOT_ANALYSED; 49], [0; 64]);
    let length = plain::analyse(&D, &mut map, &mut words).unwrap().words;
    let plan = Plan::new(&words[..length]);
    let within = |positions: Positions, kind: fn(BoxKind) -> bool| {
        plan.boxes().filter(|plan_box| kind(plan_box.kind)).any(|plan_box| plan_box.sides().zip(positions).all(|(side, position)| side.contains(&position)))
    };
    for (rank, &byte) in map.iter().enumerate() {
        let positions = set(&D).state_of_rank(rank).unwrap().positions();
        let forbidden = within(positions, |kind| matches!(kind, BoxKind::Forbidden { .. }));
        assert_eq!(byte == sys::FORBIDDEN, forbidden);
        assert_eq!(byte == sys::UNSAFE || byte == sys::DEAD, !forbidden && within(positions, |kind| kind == BoxKind::Unsafe));
    }
}

#[test]
fn records_are_stored_positions_first_and_lowest_byte_first() {
    let record = Record::new([1, 2, 3, 4, 5, 6, 7, 8], 0x0D0C_0B0A, [11, 12, 13, 14, 15, 16, 17, 255]);
    let bytes = [1, 2, 3, 4, 5, 6, 7, 8, 0x0A, 0x0B, 0x0C, 0x0D, 11, 12, 13, 14, 15, 16, 17, 255];
    assert_eq!(record.to_bytes(), bytes);
    assert_eq!(Record::from_bytes(bytes), record);
    assert_eq!((record.positions(), record.grants(), record.counts()), ([1, 2, 3, 4, 5, 6, 7, 8], 0x0D0C_0B0A, [11, 12, 13, 14, 15, 16, 17, 255]));
    assert_eq!(Record::default(), Record::new([0; 8], 0, [0; 8]));
    assert_eq!(Record::fresh(), Record::default());
}

#[test]
fn the_grants_of_a_window_are_the_counts_added_up() {
    for (counts, grants) in [([0; 8], 0), ([1, 2, 0, 0, 0, 0, 0, 4], 7), ([255; 8], 2040)] {
        assert_eq!(Record::new([9; 8], 5, counts).window_grants(), grants);
    }
}

#[test]
fn settings_are_kept_as_they_are_given() {
    assert_eq!(Settings::new(256, u32::MAX), Settings { share: 256, window: u32::MAX });
    assert_eq!(Settings::OFF, Settings { share: 255, window: 255 });
}

#[test]
fn refusals_have_numbers_both_ways() {
    let numbers: Vec<u8> = Refusal::ALL.iter().map(|refusal| refusal.number()).collect();
    assert_eq!(numbers, (1..=28).collect::<Vec<u8>>());
    for refusal in Refusal::ALL {
        assert_eq!(Refusal::try_from(refusal.number()), Ok(refusal));
    }
    for number in [0, 29, 255] {
        assert_eq!(Refusal::try_from(number), Err(NoSuchRefusal(number)));
    }
}

#[test]
fn everything_prints_for_a_log() {
    let refused = Refused { refusal: Refusal::ClaimOfHeld, place: 3 };
    assert_eq!(refused.to_string(), "refused 8 at 3: the task claims a device that it holds already");
    assert_eq!(NoSuchRefusal(29).to_string(), "no refusal has the number 29");
    let answers = [BidAnswer::Granted, BidAnswer::Finished, BidAnswer::Busy { device: 1 }, BidAnswer::Held { rank: 6 }, BidAnswer::ShareSpent];
    let told = ["granted", "finished", "waits for device 1", "held back from unsafe state 6", "waits, since its share is spent"];
    assert_eq!(answers.map(|answer| answer.to_string()), told);
    assert_eq!(answers.map(BidAnswer::text), ["granted", "finished", "busy", "held", "share spent"]);
    let locations = [Location::Forbidden { index: 3 }, Location::Unsafe { index: 6 }, Location::Neither];
    assert_eq!(locations.map(|location| location.to_string()), ["in forbidden box at 3", "in unsafe box at 6", "in no box"]);
    assert_eq!(locations.map(Location::text), ["in forbidden box", "in unsafe box", "in no box"]);
    let patch = Action::Claim { device: 0, units: 2 };
    assert_eq!([CLAIM_0, patch, RELEASE_1].map(|action| action.to_string()), ["claims device 0", "claims 2 units of device 0", "releases device 1"]);
    let of_d = PerThousand { quotient: 153, remainder: 33 };
    assert_eq!(of_d.to_string(), "153 of every 1000 permitted states, remainder 33");
    let row = Tally { granted: 4, busy: 1, held: 2, share_spent: 3 };
    assert_eq!((row.to_string(), row.bids()), ("4 granted, 1 busy, 2 held, 3 share spent".to_string(), 10));
    assert_eq!(Tally { granted: u32::MAX, busy: 1, ..Tally::default() }.bids(), 1 << 32);
}

#[cfg(feature = "std")]
#[test]
fn what_is_refused_is_an_error() {
    let errors: [Box<dyn std::error::Error>; 2] = [Box::new(Set::read(&[]).unwrap_err()), Box::new(NoSuchRefusal(29))];
    assert_eq!(errors.map(|error| error.to_string()), ["refused 1 at 0: the set is empty", "no refusal has the number 29"]);
}
