//! Fair shares (`docs/SCOPE.md`, "Fair shares") through the plain calls: when a share is spent, when a window is over, which settings and counts are refused, and
//! what `docs/HOSTS.md` tells hosts to do.

mod sets;

use arbiter::plain::{again, analyse, bid, route, NOT_ANALYSED};
use arbiter::BidAnswer::{Busy, Finished, Granted, Held, ShareSpent};
use arbiter::{BidAnswer, Counts, Positions, Record, Refusal, Settings};
use sets::{planned, refused, users_of_one_device, A, D, E, PLAN, R, STATES, U};

fn map_of_a() -> [u8; STATES] {
    let mut map = [NOT_ANALYSED; STATES];
    assert_eq!(analyse(&A, &mut map, &mut [0; PLAN.len()]), planned(PLAN.len(), 50, 0));
    map
}

fn map_of(set: &[u32]) -> Vec<u8> {
    let mut map = vec![NOT_ANALYSED; arbiter::plain::read(set).unwrap()];
    let _ = analyse(set, &mut map, &mut vec![0; 10_000]).unwrap();
    map
}

/// Numbers of the first two tasks.
fn two(first: u8, second: u8) -> [u8; 8] {
    [first, second, 0, 0, 0, 0, 0, 0]
}

/// A record of example a with these counts.
fn counted(positions: Positions, counts: Counts) -> Record {
    Record::new(positions, 9, counts)
}

#[test]
fn example_t_answers_six_bids_with_share_1_of_window_2() {
    let map = map_of_a();
    let mut record = Record::fresh();
    let expected: [(usize, BidAnswer, Positions, u32, Counts); 6] = [
        (0, Granted, two(1, 0), 1, two(1, 0)),
        (1, Held { rank: 6 }, two(1, 0), 1, two(1, 0)),
        // Nobody else can go on; with this grant the window is over.
        (0, Granted, two(2, 0), 2, two(0, 0)),
        (1, Busy { device: 1 }, two(2, 0), 2, two(0, 0)),
        (0, Granted, two(3, 0), 3, two(1, 0)),
        // Now task 1 can, and has its share left.
        (0, ShareSpent, two(3, 0), 3, two(1, 0)),
    ];
    for (task, answer, positions, grants, counts) in expected {
        assert_eq!(bid(&mut record, &A, &map, task, Settings::new(1, 2)), Ok(answer));
        assert_eq!(record, Record::new(positions, grants, counts));
    }
    // Asked again it is answered the same, until the other task is granted something.
    assert_eq!(bid(&mut record, &A, &map, 0, Settings::new(1, 2)), Ok(ShareSpent));
    assert_eq!(bid(&mut record, &A, &map, 1, Settings::new(1, 2)), Ok(Granted));
    assert_eq!(bid(&mut record, &A, &map, 0, Settings::new(1, 2)), Ok(Granted));

    let mut record = Record::fresh();
    let answers = [0, 0, 0, 0, 1, 0].map(|task| bid(&mut record, &A, &map, task, Settings::new(1, 255)).unwrap());
    assert_eq!(answers, [Granted, Granted, Granted, ShareSpent, Granted, Granted]);
}

#[test]
fn a_window_is_over_with_its_last_grant_and_not_before_or_after() {
    let map = map_of_a();
    for window in 1..=9 {
        let mut record = Record::fresh();
        // Task 0 to its end, then task 1: each can go on alone.
        for (grants, task) in (1..=8).zip([0, 0, 0, 0, 1, 1, 1, 1]) {
            assert_eq!(bid(&mut record, &A, &map, task, Settings::new(255, window)), Ok(Granted));
            assert_eq!((record.grants(), record.window_grants()), (grants, grants % window));
        }
        assert_eq!(bid(&mut record, &A, &map, 0, Settings::new(255, window)), Ok(Finished));
        assert_eq!(again(&mut record, &A), Ok(()));
        assert_eq!(record, Record::new([0; 8], 8, [0; 8]));
    }
}

#[test]
fn a_share_is_spent_only_if_another_with_share_left_would_be_granted() {
    let map = map_of_a();
    // Task 0 has had its share of 2, and is at position 3: what task 1 has had, where it is, and what task 0 is answered.
    let cases = [
        (0, 0, ShareSpent),
        (1, 0, ShareSpent),
        // Task 1 has had its share too, or more than that.
        (2, 0, Granted),
        (3, 0, Granted),
        // Task 1 has to wait for device 0, which task 0 is about to release.
        (1, 1, Granted),
        // Task 1 is finished.
        (0, 4, Granted),
    ];
    for (count, position, answer) in cases {
        for own in [2, 3, 200] {
            let mut record = counted(two(3, position), two(own, count));
            let mut after = record.clone();
            if answer == Granted {
                after = Record::new(two(4, position), 10, two(own + 1, count));
            }
            assert_eq!(bid(&mut record, &A, &map, 0, Settings::new(2, 255)), Ok(answer), "{own} {count} {position}");
            assert_eq!(record, after);
        }
    }
    // The other answers come before: Finished, Held and Busy, though the share is spent and another could go on.
    for (position, other, answer) in [(4, 0, Finished), (0, 1, Held { rank: 6 }), (1, 3, Busy { device: 1 })] {
        assert_eq!(bid(&mut counted(two(position, other), two(9, 0)), &A, &map, 0, Settings::new(2, 255)), Ok(answer));
    }
}

#[test]
fn settings_outside_1_to_255_are_refused_after_13_and_before_16_and_17() {
    let map = map_of_a();
    for wrong in [0, 256, 257, 511, 512, 65_536, 65_537, 1 << 24, 1 << 31, u32::MAX] {
        for settings in [Settings::new(wrong, 255), Settings::new(255, wrong), Settings::new(wrong, wrong), Settings::new(wrong, 1), Settings::new(1, wrong)] {
            for (positions, task) in [(two(0, 0), 0), (two(5, 0), 0), (two(1, 1), 0), (two(0, 0), 2), (two(4, 4), 0)] {
                let mut record = counted(positions, [7; 8]);
                assert_eq!(bid(&mut record, &A, &map, task, settings), refused(Refusal::BadSetting, 0), "{settings:?}");
                assert_eq!(bid(&mut record, &A, &map[1..], task, settings), refused(Refusal::MapTooShort, STATES));
                assert_eq!(bid(&mut record, &A[..12], &map, task, settings), refused(Refusal::NoEnd, 12));
                assert_eq!(record, counted(positions, [7; 8]));
            }
        }
    }
    for share in 1..=255 {
        for window in [1, 2, 254, 255] {
            assert_eq!(bid(&mut Record::fresh(), &A, &map, 0, Settings::new(share, window)), Ok(Granted));
        }
    }
}

#[test]
fn counts_that_reach_the_window_are_refused_in_bids_alone() {
    let map = map_of_a();
    let mut record = counted(two(0, 0), two(3, 4));
    for window in 1..=7 {
        for task in [0, 1, 2] {
            assert_eq!(bid(&mut record, &A, &map, task, Settings::new(1, window)), refused(Refusal::BadRecord, 0));
        }
    }
    assert_eq!(record, counted(two(0, 0), two(3, 4)));
    assert_eq!(bid(&mut record, &A, &map, 2, Settings::new(1, 8)), refused(Refusal::NoSuchTask, 2));
    assert_eq!(bid(&mut record, &A, &map, 0, Settings::new(1, 8)), Ok(Granted));
    assert_eq!(record, Record::new(two(1, 0), 10, two(0, 0)));

    // Together they don't fit a byte.
    for (counts, window) in [(two(255, 255), 255), (two(128, 128), 255), (two(255, 1), 1)] {
        assert_eq!(bid(&mut counted(two(0, 0), counts), &A, &map, 0, Settings::new(1, window)), refused(Refusal::BadRecord, 0));
    }
    assert_eq!(route(&counted(two(0, 1), two(255, 255)), &A, &map, &mut [0; 8]), Ok(7));
    let mut at_end = counted(two(4, 4), two(255, 255));
    assert_eq!(again(&mut at_end, &A), Ok(()));
    assert_eq!(at_end, counted(two(0, 0), two(0, 0)));
}

#[test]
fn a_count_of_an_absent_task_is_refused_in_every_call() {
    let map = map_of_a();
    for task in 2..8 {
        for count in [1, 128, 255] {
            let counts = std::array::from_fn(|other| if other == task { count } else { 0 });
            let (mut record, mut at_end, mut steps) = (counted(two(0, 0), counts), counted(two(4, 4), counts), [0; 8]);
            assert_eq!(bid(&mut record, &A, &map, 0, Settings::OFF), refused(Refusal::BadRecord, 0));
            assert_eq!(again(&mut at_end, &A), refused(Refusal::BadRecord, 0));
            assert_eq!(again(&mut record, &A), refused(Refusal::BadRecord, 0));
            assert_eq!(route(&record, &A, &map, &mut steps), refused(Refusal::BadRecord, 0));
            assert_eq!((record, at_end, steps), (counted(two(0, 0), counts), counted(two(4, 4), counts), [255; 8]));
        }
    }
    // In a set of eight tasks none is absent.
    let eight = users_of_one_device(7, &[1; 8]);
    assert_eq!(bid(&mut counted([0; 8], [1; 8]), &eight, &map_of(&eight), 7, Settings::OFF), Ok(Granted));
}

/// Answers that the set, the map and the record give without shares.
#[test]
fn a_share_that_is_not_less_than_the_window_is_never_spent() {
    let map = map_of(&D);
    for (share, window) in [(1, 1), (2, 2), (9, 5), (255, 1), (255, 254)] {
        let (mut shared, mut plain) = (Record::fresh(), Record::fresh());
        for task in [0, 0, 1, 0, 1, 1, 0, 0, 0, 0, 1, 0, 1, 1, 1, 1] {
            let answer = bid(&mut plain, &D, &map, task, Settings::OFF);
            assert_eq!(bid(&mut shared, &D, &map, task, Settings::new(share, window)), answer);
            assert_eq!((shared.positions(), shared.grants()), (plain.positions(), plain.grants()));
        }
    }
}

#[test]
fn as_many_rounds_as_actions_bring_every_task_home_under_all_settings() {
    let eight = users_of_one_device(3, &[1; 8]);
    let sets: [(&[u32], usize, usize); 6] = [(&A, 2, 8), (&D, 2, 12), (&E, 3, 6), (&R, 2, 14), (&U, 2, 14), (&eight, 8, 16)];
    for (set, tasks, actions) in sets {
        let map = map_of(set);
        for share in [1, 2, 3, 4, 7, 254, 255] {
            for window in (1..=20).chain([127, 254, 255]) {
                let mut record = Record::fresh();
                for round in 0..actions {
                    for turn in 0..tasks {
                        // Another order in every other round.
                        let task = if round % 2 == 0 { turn } else { tasks - 1 - turn };
                        let _ = bid(&mut record, set, &map, task, Settings::new(share, window)).unwrap();
                    }
                }
                assert_eq!(again(&mut record, set), Ok(()), "{set:X?}, share {share}, window {window}");
            }
        }
    }
}

/// The example of docs/HOSTS.md: paging, task 1, bids faster than call-taking, task 0, and both want the line.
#[test]
fn paging_lets_call_taking_go_first() {
    let set = users_of_one_device(1, &[1, 3]);
    let map = map_of(&set);
    let answers = |settings| {
        let mut record = Record::fresh();
        [1, 1, 1, 0, 1, 1, 0].map(|task| bid(&mut record, &set, &map, task, settings).unwrap())
    };
    let busy = Busy { device: 0 };
    assert_eq!(answers(Settings::OFF), [Granted, Granted, Granted, busy, Granted, Granted, busy]);
    assert_eq!(answers(Settings::new(2, 4)), [Granted, Granted, ShareSpent, Granted, busy, busy, Granted]);
}

/// Another: task 2 could claim a device of its own, and doesn't ask. Task 1 has had its share, and task 0 waits for what it holds. With the window as share it goes on.
#[test]
fn nobody_waits_for_a_task_that_does_not_ask_if_the_share_is_the_window() {
    let set = [0x10000001, 0x10000001, 0x20000000, 0x30000000, 0x40000000, 0x20000000, 0x30000000, 0x40000000, 0x20000000, 0x30000001, 0x40000001, 0x5000000B];
    let (map, settings) = (map_of(&set), Settings::new(1, 3));
    let mut record = Record::fresh();
    assert_eq!(bid(&mut record, &set, &map, 1, settings), Ok(Granted));
    for _ in 0..9 {
        assert_eq!([0, 1].map(|task| bid(&mut record, &set, &map, task, settings)), [Ok(Busy { device: 0 }), Ok(ShareSpent)]);
    }
    assert_eq!(bid(&mut record, &set, &map, 1, Settings::new(settings.window, settings.window)), Ok(Granted));
    assert_eq!(bid(&mut record, &set, &map, 0, settings), Ok(Granted));
}

/// What docs/HOSTS.md says: a window that counts reach is refused; until the next grant the window is one more than the grants that it has had, and with that grant
/// the counts are 0.
#[test]
fn a_window_is_made_smaller_by_closing_the_one_that_is_open() {
    let (map, smaller) = (map_of_a(), Settings::new(1, 2));
    let mut record = counted(two(0, 0), two(60, 40));
    assert_eq!(bid(&mut record, &A, &map, 0, smaller), refused(Refusal::BadRecord, 0));
    let closing = Settings::new(smaller.share, record.window_grants() + 1);
    assert_eq!(bid(&mut record, &A, &map, 0, closing), Ok(Granted));
    assert_eq!(record.counts(), [0; 8]);
    assert_eq!(bid(&mut record, &A, &map, 0, smaller), Ok(Granted));
    assert_eq!(record.counts(), two(1, 0));
}

/// And of a release that can't wait: its own bid brings the window as share, and the window of all others.
#[test]
fn a_bid_whose_share_is_the_window_goes_before_others_and_keeps_the_window() {
    let map = map_of_a();
    let mut record = counted(two(3, 0), two(1, 0));
    assert_eq!(bid(&mut record, &A, &map, 0, Settings::new(1, 2)), Ok(ShareSpent));
    assert_eq!(bid(&mut record, &A, &map, 0, Settings::new(2, 2)), Ok(Granted));
    assert_eq!(record, Record::new(two(4, 0), 10, [0; 8]));
    // With a larger window the counts would have gone on past the other's.
    let mut record = counted(two(3, 0), two(1, 0));
    assert_eq!(bid(&mut record, &A, &map, 0, Settings::OFF), Ok(Granted));
    assert_eq!(bid(&mut record, &A, &map, 1, Settings::new(1, 2)), refused(Refusal::BadRecord, 0));
}
