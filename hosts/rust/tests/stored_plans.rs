//! A stored plan that is questioned without its set (`docs/SCOPE.md`, "Stored plans"), on the plans of the desk examples and on damaged ones.

mod sets;

use arbiter::{plain, sys, BoxKind, Location, Plan, Positions, Refusal, Refused, Set};
use sets::{refused, users_of_one_device, A, D, E, PLAN, R, R_PLAN, U, U_PLAN};

/// These positions of the first tasks; past them some that no box of the examples has.
fn at(first: &[u8]) -> Positions {
    let mut positions = [9; sys::MAX_TASKS];
    positions[..first.len()].copy_from_slice(first);
    positions
}

fn ask_a(first: &[u8]) -> Result<Location, Refused> {
    plain::locate(at(first), &PLAN, 2)
}

/// A state in a box of either kind, asked of words that aren't a plan for two tasks.
fn outside(words: &[u32], place: usize) {
    for first in [[2, 2], [1, 1], [0, 0]] {
        assert_eq!(plain::locate(at(&first), words, 2), refused(Refusal::OutsideLayout, place), "{words:X?}");
    }
}

#[test]
fn the_plan_of_a_is_questioned() {
    // Both forbidden boxes hold (2, 2), and the first counts.
    assert_eq!(ask_a(&[2, 2]), Ok(Location::Forbidden { index: 0 }));
    assert_eq!(ask_a(&[2, 1]), Ok(Location::Forbidden { index: 3 }));
    assert_eq!(ask_a(&[1, 1]), Ok(Location::Unsafe { index: 6 }));
    assert_eq!(ask_a(&[1, 0]), Ok(Location::Neither));
    // Next to each side of the first box, 1 to 3 by 2 to 2, and at its corners.
    assert_eq!([[0, 2], [4, 2], [3, 1], [3, 3]].map(|first| ask_a(&first)), [Ok(Location::Neither); 4]);
    assert_eq!([[1, 2], [3, 2]].map(|first| ask_a(&first)), [Ok(Location::Forbidden { index: 0 }); 2]);
    // No position is wrong by itself.
    assert_eq!(ask_a(&[255, 255]), Ok(Location::Neither));
    assert_eq!(Plan::new(&PLAN).locate(at(&[1, 1]), 2), ask_a(&[1, 1]));
    assert_eq!([ask_a(&[2, 1]), ask_a(&[1, 1]), ask_a(&[1, 0])].map(|found| found.unwrap().index()), [Some(3), Some(6), None]);
}

#[test]
fn forbidden_boxes_go_before_unsafe_ones() {
    // The unsafe box holds every state; the forbidden one stands before it, as it has to, and holds one.
    let words = [0x6000000F, 0x80000505, 0x70000000, 0x800000FF, 0x70000000, 0x80000005, 0x50000006];
    assert_eq!(plain::locate(at(&[5]), &words, 1), Ok(Location::Forbidden { index: 0 }));
    for position in [0, 4, 6, 255] {
        assert_eq!(plain::locate(at(&[position]), &words, 1), Ok(Location::Unsafe { index: 2 }));
    }
    assert_eq!(Plan::new(&words).box_at(0).unwrap().kind, BoxKind::Forbidden { device: 15 });
}

#[test]
fn positions_past_the_task_count_are_unread() {
    for position in [0, 1, 2, 255] {
        let mut positions = [position; sys::MAX_TASKS];
        positions[..2].copy_from_slice(&[1, 1]);
        assert_eq!(plain::locate(positions, &PLAN, 2), Ok(Location::Unsafe { index: 6 }));
    }
}

/// Every state of a set, asked of the plan alone: the answer goes with the map's byte, and the box at the index holds the state.
fn agrees_with_its_map(words: &[u32]) {
    let set = Set::read(words).unwrap();
    let (mut map, mut plan) = (vec![plain::NOT_ANALYSED; set.states()], vec![0; 65_536]);
    let length = plain::analyse(words, &mut map, &mut plan).unwrap().words;
    let plan = Plan::new(&plan[..length]);
    for (rank, &byte) in map.iter().enumerate() {
        let positions = set.state_of_rank(rank).unwrap().positions();
        let found = plan.locate(positions, set.tasks()).unwrap();
        match byte {
            sys::FORBIDDEN => assert!(matches!(found, Location::Forbidden { .. }), "{rank}: {found}"),
            sys::UNSAFE | sys::DEAD => assert!(matches!(found, Location::Unsafe { .. }), "{rank}: {found}"),
            _ => assert_eq!(found, Location::Neither, "{rank}"),
        }
        if let Some(index) = found.index() {
            let plan_box = plan.box_at(index).unwrap();
            assert_eq!(plan_box.kind == BoxKind::Unsafe, matches!(found, Location::Unsafe { .. }));
            assert_eq!(plan_box.sides().count(), set.tasks());
            assert!(plan_box.sides().zip(positions).all(|(side, position)| side.contains(&position)), "{rank}");
        }
    }
}

#[test]
fn plans_agree_with_their_maps_at_every_state() {
    for words in [&A[..], &D, &E, &R, &U, &users_of_one_device(1, &[20, 20]), &users_of_one_device(3, &[1, 1, 1, 1, 1])] {
        agrees_with_its_map(words);
    }
}

#[test]
fn a_task_count_outside_1_to_8_is_refused_before_the_plan_is_looked_at() {
    for tasks in [0, 9, 10, 255, 256, 258, 1 << 32, (1 << 32) + 2, usize::MAX] {
        for words in [&PLAN[..], &[], &[0x50000000], &[0xFFFFFFFF]] {
            assert_eq!(plain::locate(at(&[1, 1]), words, tasks), refused(Refusal::BadTaskCount, 0));
        }
    }
    for tasks in 1..=8 {
        assert_eq!(plain::locate(at(&[1, 1]), &[0x50000000], tasks), Ok(Location::Neither));
    }
}

#[test]
fn a_plan_for_another_number_of_tasks_is_refused() {
    assert_eq!(plain::locate(at(&[1, 1]), &PLAN, 1), refused(Refusal::OutsideLayout, 2));
    assert_eq!(plain::locate(at(&[1, 1]), &PLAN, 3), refused(Refusal::OutsideLayout, 3));
}

#[test]
fn a_plan_that_is_cut_is_refused_at_its_length() {
    for length in 0..PLAN.len() {
        outside(&PLAN[..length], length);
    }
}

#[test]
fn a_plan_with_one_word_changed_is_refused_at_that_word() {
    let cases: [(usize, &[u32]); 11] = [
        // A first word of a box: kinds that no plan has there, a device over 15, a field in kind 7.
        (0, &[0x00000000, 0x10000000, 0x40000000, 0x80000103, 0xB0000000, 0xF0000000, 0x60000010, 0x60000100, 0x68000000]),
        (3, &[0x80020000, 0x60000010, 0x50000004, 0x50000002]),
        (6, &[0x70000001, 0x70000010, 0x78000000, 0x5000000A]),
        // A side: another kind, another task, the lowest position over the highest, a bit that isn't used.
        (1, &[0x60000000, 0x70000103, 0x90000103, 0xA0000103, 0x50000001, 0x80010103, 0x80FF0103, 0x80000302, 0x80000100, 0x81000103, 0x88000103]),
        (2, &[0x80000202, 0x80020202, 0x80010302, 0x80010201, 0x84010202]),
        (8, &[0x80000101, 0x80020101, 0x80010201, 0x82010101, 0x60000000]),
        // Kinds in another order.
        (9, &[0x60000000, 0x80000101, 0xB0000006, 0x50000008, 0x5000000A]),
        (10, &[0x90000006, 0x90000005, 0x90000000, 0x70000000, 0x60000000]),
        // END's count.
        (10, &[0x50000009, 0x5000000B, 0x50000000, 0x5800000A, 0x5000010A]),
        (9, &[0x50000000]),
        (7, &[0x80010101, 0x5000000A]),
    ];
    for (place, changed) in cases {
        for &word in changed {
            let mut words = PLAN;
            words[place] = word;
            outside(&words, place);
        }
    }
}

#[test]
fn words_after_end_and_ranks_that_do_not_rise_are_refused() {
    for word in [0x5000000B, 0x5000000A, 0, 0x90000007, u32::MAX] {
        outside(&[&PLAN[..], &[word]].concat(), PLAN.len());
        outside(&[&PLAN[..], &[word, word]].concat(), PLAN.len());
    }
    outside(&[0x90000006, 0x90000006, 0x50000002], 1);
    outside(&[0x90000000, 0x90000007, 0x90000006, 0x50000003], 2);
    // After a rank no box.
    outside(&[0x90000006, 0x70000000, 0x80000101, 0x80010101, 0x50000004], 1);
    outside(&[0x90000006, 0x60000000, 0x80000101, 0x80010101, 0x50000004], 1);
    // Ranks are held to each other and to nothing else.
    assert_eq!(plain::locate(at(&[0]), &[0x90000000, 0x90000001, 0x9FFFFFFF, 0x50000003], 8), Ok(Location::Neither));
}

#[test]
fn dead_states_that_are_not_reached_stand_behind_the_others_and_rise_by_themselves() {
    // Behind ranks that are lower, equal or higher, and where there are none.
    for [first, second] in [[0x90000006, 0xA0000007], [0x90000006, 0xA0000006], [0x90000006, 0xA0000005], [0xA0000000, 0xAFFFFFFF]] {
        assert_eq!(plain::locate(at(&[1, 1]), &[first, second, 0x50000002], 2), Ok(Location::Neither), "{first:X} {second:X}");
    }
    outside(&[0x90000001, 0xA0000006, 0xA0000006, 0x50000003], 2);
    outside(&[0xA0000006, 0xA0000005, 0x50000002], 1);
    // After one of them neither a reached one nor a box.
    outside(&[0xA0000005, 0x90000006, 0x50000002], 1);
    outside(&[0x90000005, 0xA0000006, 0x90000007, 0x50000003], 2);
    outside(&[0xA0000006, 0x70000000, 0x80000101, 0x80010101, 0x50000004], 1);
    outside(&[0xA0000006, 0x60000000, 0x80000101, 0x80010101, 0x50000004], 1);
    // No kind comes after it but END.
    for kind in [0, 1, 2, 3, 4, 8, 11, 12, 13, 14, 15] {
        outside(&[0x90000005, 0xA0000006, kind << 28 | 7, 0x50000003], 2);
        outside(&[kind << 28 | 7, 0x50000001], 0);
    }
    for plan in [&R_PLAN[..], &U_PLAN] {
        assert_eq!(plain::locate(at(&[0, 0]), plan, 2), Ok(Location::Neither));
        for length in 0..plan.len() {
            outside(&plan[..length], length);
        }
    }
    assert_eq!(plain::locate(at(&[4, 3]), &R_PLAN, 2), Ok(Location::Unsafe { index: 12 }));
    assert_eq!(plain::locate(at(&[3, 4]), &U_PLAN, 2), Ok(Location::Unsafe { index: 12 }));
}

#[test]
fn a_fault_behind_the_box_that_holds_the_state_is_found_all_the_same() {
    let mut words = PLAN;
    words[10] = 0x5000000B;
    assert_eq!(plain::locate(at(&[2, 2]), &words, 2), refused(Refusal::OutsideLayout, 10));
}
