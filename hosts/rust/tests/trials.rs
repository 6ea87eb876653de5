//! Trying settings (`docs/SCOPE.md`, "Trial") through the plain call: rows held to bids that are made one by one, where a trial stops, what it turns away and in which
//! order, and the longest trials.

mod sets;

use arbiter::plain::{analyse, bid, read, trial, NOT_ANALYSED};
use arbiter::{BidAnswer, Record, Refusal, Set, Settings, Tally, Trial};
use sets::{refused, users_of_one_device, A, D, E, R, STATES, U};

const MOST_BIDS: u64 = 65_535 * 255;
const NO_BIDS: Tally = Tally { granted: 0, busy: 0, held: 0, share_spent: 0 };
const IDLE: [u32; 4] = [0x20000000, 0x20000000, 0x20000000, 0x50000003];

fn map_of(set: &[u32]) -> Vec<u8> {
    let mut map = vec![NOT_ANALYSED; read(set).unwrap()];
    let _ = analyse(set, &mut map, &mut vec![0; 10_000]).unwrap();
    map
}

/// Granted, busy, held and share spent.
fn tally([granted, busy, held, share_spent]: [u32; 4]) -> Tally {
    Tally { granted, busy, held, share_spent }
}

/// A trial whose first tasks have these rows.
fn tried(made: u64, first_rows: &[[u32; 4]], finished: u64) -> Trial {
    let mut rows = [NO_BIDS; 8];
    for (row, tallies) in rows.iter_mut().zip(first_rows) {
        *row = tally(*tallies);
    }
    Trial { made, rows, finished }
}

/// The same bids one by one on a record, and their answers counted here.
fn bid_by_bid(set: &[u32], map: &[u8], order: &[u8], rounds: usize, settings: Settings) -> Trial {
    let mut record = Record::fresh();
    let (mut made, mut rows, mut finished) = (0, [NO_BIDS; 8], 0);
    let is_finished = |record: &Record, task| Set::read(set).unwrap().state(record.positions()).unwrap().next_action(task).is_none();
    for task in order.iter().copied().cycle().take(rounds * order.len()).map(usize::from) {
        if (0..8).all(|task| is_finished(&record, task)) {
            break;
        }
        made += 1;
        match bid(&mut record, set, map, task, settings).unwrap() {
            BidAnswer::Granted => rows[task].granted += 1,
            BidAnswer::Busy { .. } => rows[task].busy += 1,
            BidAnswer::Held { .. } => rows[task].held += 1,
            BidAnswer::ShareSpent => rows[task].share_spent += 1,
            BidAnswer::Finished => finished += 1,
        }
    }
    Trial { made, rows, finished }
}

#[test]
fn example_a_is_tried_with_and_without_shares() {
    let map = map_of(&A);
    // As in the rounds of serve (hosts/serve.stdout), but for its last, in which every task is finished.
    assert_eq!(trial(&A, &map, &[0, 1], 100, Settings::OFF), Ok(tried(12, &[[4, 0, 0, 0], [4, 1, 1, 0]], 2)));
    // Example t, with the bids in the order that it has them.
    assert_eq!(trial(&A, &map, &[0, 1, 0, 1, 0, 0], 1, Settings::new(1, 2)), Ok(tried(6, &[[3, 0, 0, 1], [0, 1, 1, 0]], 0)));
    assert_eq!(trial(&A, &map, &[0, 0, 0, 0, 1, 0], 1, Settings::new(1, 255)), Ok(tried(6, &[[4, 0, 0, 1], [1, 0, 0, 0]], 0)));
    // And with share and window exchanged no share is spent.
    assert_eq!(trial(&A, &map, &[0, 1, 0, 1, 0, 0], 1, Settings::new(2, 1)), Ok(tried(6, &[[4, 0, 0, 0], [0, 1, 1, 0]], 0)));
}

#[test]
fn rows_count_what_bids_are_answered() {
    let eight = users_of_one_device(3, &[1, 2, 1, 1, 1, 1, 1, 1]);
    let sets: [(&[u32], u8); 7] = [(&A, 2), (&D, 2), (&E, 3), (&R, 2), (&U, 2), (&eight, 8), (&IDLE, 3)];
    let mut seen = [NO_BIDS; 8];
    for (set, tasks) in sets {
        let map = map_of(set);
        let in_turn: Vec<u8> = (0..tasks).collect();
        let falling: Vec<u8> = (0..tasks).rev().collect();
        let first_often: Vec<u8> = [0, 0, 0].into_iter().chain(0..tasks).collect();
        let without_first: Vec<u8> = (tasks.min(2) - 1..tasks).collect();
        for order in [in_turn, falling, first_often, without_first] {
            for rounds in [0, 1, 2, 3, 5, 40] {
                for settings in [Settings::OFF, Settings::new(1, 1), Settings::new(1, 2), Settings::new(1, 9), Settings::new(2, 16), Settings::new(3, 255)] {
                    let counted = bid_by_bid(set, &map, &order, rounds, settings);
                    assert_eq!(trial(set, &map, &order, rounds as u16, settings), Ok(counted), "{set:X?}, {order:?}, {rounds} rounds, {settings:?}");
                    assert_eq!(counted.rows.iter().map(|row| row.bids()).sum::<u64>() + counted.finished, counted.made);
                    assert_eq!(counted.rows[tasks.into()..], vec![NO_BIDS; 8 - usize::from(tasks)]);
                    for (sum, row) in seen.iter_mut().zip(counted.rows) {
                        *sum = tally([sum.granted + row.granted, sum.busy + row.busy, sum.held + row.held, sum.share_spent + row.share_spent]);
                    }
                }
            }
        }
    }
    // Every answer came, of the first two tasks and of the last.
    assert!([0, 1].iter().all(|&task| [seen[task].granted, seen[task].busy, seen[task].held, seen[task].share_spent].iter().all(|&sum| sum > 0)), "{seen:?}");
    assert!(seen[7].granted > 0 && seen[7].busy > 0, "{seen:?}");
}

#[test]
fn a_trial_stops_right_before_the_bid_at_which_every_task_is_finished() {
    let map = map_of(&A);
    // After the eight bids nobody is asked, though the order goes on: in the middle of a round, at its end, and in a later one.
    let all_granted = [[4, 0, 0, 0], [4, 0, 0, 0]];
    for order in [&[0, 0, 0, 0, 1, 1, 1, 1, 0, 1, 0][..], &[0, 0, 0, 0, 1, 1, 1, 1, 1], &[0, 0, 0, 0, 1, 1, 1, 1]] {
        for rounds in [1, 2, u16::MAX] {
            assert_eq!(trial(&A, &map, order, rounds, Settings::OFF), Ok(tried(8, &all_granted, 0)));
        }
    }
    // Task 0 is asked on while task 1 isn't finished, and that counts in no row.
    assert_eq!(trial(&A, &map, &[0, 0, 0, 0, 0, 0, 1], 9, Settings::OFF), Ok(tried(28, &all_granted, 20)));
    // Task 1 never bids, so that every round is made.
    assert_eq!(trial(&A, &map, &[0, 0, 0], 7, Settings::OFF), Ok(tried(21, &all_granted[..1], 17)));
}

#[test]
fn without_rounds_or_actions_no_bid_is_made_whatever_the_map() {
    for settings in [Settings::OFF, Settings::new(1, 1)] {
        for byte in [0, 1, 2, 3, 4, NOT_ANALYSED] {
            assert_eq!(trial(&A, &[byte; STATES], &[0, 1], 0, settings), Ok(tried(0, &[], 0)));
            for rounds in [0, 1, u16::MAX] {
                assert_eq!(trial(&IDLE, &[byte], &[2, 0], rounds, settings), Ok(tried(0, &[], 0)));
            }
        }
    }
}

#[test]
fn orders_are_refused_at_the_first_place_that_is_wrong() {
    let map = map_of(&A);
    let place = |order: &[u8], rounds| trial(&A, &map, order, rounds, Settings::OFF).map(|_| ());
    for rounds in [0, 1, 9, u16::MAX] {
        assert_eq!(place(&[], rounds), refused(Refusal::BadOrder, 0));
        for absent in [2, 3, 7, 8, 9, 128, 255] {
            for at in [0, 1, 2, 100, 253, 254] {
                let mut order = [0, 1].repeat(128);
                order.truncate(255);
                assert_eq!(place(&order, rounds), Ok(()));
                order[at] = absent;
                order[254] = absent;
                assert_eq!(place(&order, rounds), refused(Refusal::BadOrder, at));
                // A longer one too, and one that ends there.
                order.resize(1000, 1);
                assert_eq!(place(&order, rounds), refused(Refusal::BadOrder, at));
                assert_eq!(place(&order[..=at], rounds), refused(Refusal::BadOrder, at));
            }
        }
        for length in [256, 257, 300, 510, 511, 512, 65_535, 65_536, 65_791, 70_000] {
            assert_eq!(place(&vec![0; length], rounds), refused(Refusal::BadOrder, 255));
            let mut order = vec![1; length];
            order[255..].fill(9);
            assert_eq!(place(&order, rounds), refused(Refusal::BadOrder, 255));
        }
    }
    // Every task is finished before the trial would come to the last place.
    assert_eq!(place(&[0, 0, 0, 0, 1, 1, 1, 1, 2], 1), refused(Refusal::BadOrder, 8));
    assert_eq!(trial(&IDLE, &[0], &[0, 1, 2, 3], 1, Settings::OFF), refused(Refusal::BadOrder, 3));
    // All eight tasks of a set that has them.
    let eight = users_of_one_device(7, &[1; 8]);
    assert_eq!(trial(&eight, &map_of(&eight), &[7, 8], 1, Settings::OFF), refused(Refusal::BadOrder, 1));
    assert!(trial(&eight, &map_of(&eight), &[7, 0, 1, 2, 3, 4, 5, 6], 1, Settings::OFF).is_ok());
}

#[test]
fn refusals_come_in_their_order() {
    let map = map_of(&A);
    let spoilt = vec![NOT_ANALYSED; STATES];
    let (wrong, none): (_, &[u8]) = (Settings::new(0, 256), &[]);
    for rounds in [0, 1, u16::MAX] {
        assert_eq!(trial(&A[..12], none, none, rounds, wrong), refused(Refusal::NoEnd, 12));
        assert_eq!(trial(&[], none, none, rounds, wrong), refused(Refusal::NoWords, 0));
        assert_eq!(trial(&A, &spoilt[1..], none, rounds, wrong), refused(Refusal::MapTooShort, STATES));
        assert_eq!(trial(&A, &spoilt, none, rounds, wrong), refused(Refusal::BadSetting, 0));
        assert_eq!(trial(&IDLE, &[9], &[3], rounds, wrong), refused(Refusal::BadSetting, 0));
        assert_eq!(trial(&A, &spoilt, none, rounds, Settings::OFF), refused(Refusal::BadOrder, 0));
        assert_eq!(trial(&A, &spoilt, &[1, 5], rounds, Settings::OFF), refused(Refusal::BadOrder, 1));
    }
    for wrong in [0, 256, 257, 511, 512, 65_536, 65_537, 1 << 24, 1 << 31, u32::MAX] {
        for settings in [Settings::new(wrong, 255), Settings::new(255, wrong), Settings::new(wrong, 1), Settings::new(1, wrong)] {
            assert_eq!(trial(&A, &map, &[0], 0, settings), refused(Refusal::BadSetting, 0), "{settings:?}");
        }
    }
    for share in 1..=255 {
        for window in [1, 2, 254, 255] {
            assert_eq!(trial(&A, &map, &[0], 1, Settings::new(share, window)), Ok(tried(1, &[[1, 0, 0, 0]], 0)));
        }
    }
}

#[test]
fn a_bid_that_is_refused_ends_the_trial() {
    let mut map = map_of(&A);
    for byte in [1, 2, 3, 4, NOT_ANALYSED] {
        map[0] = byte;
        assert_eq!(trial(&A, &map, &[0], 1, Settings::OFF), refused(Refusal::BadRecord, 0));
    }
    map[0] = 0;
    // The state that task 0's third action leads to. It is asked for in the third bid of task 0, and by nobody else.
    map[15] = 4;
    assert_eq!(trial(&A, &map, &[0], 2, Settings::OFF), Ok(tried(2, &[[2, 0, 0, 0]], 0)));
    assert_eq!(trial(&A, &map, &[0], 3, Settings::OFF), refused(Refusal::BadMapByte, 15));
    assert_eq!(trial(&A, &map, &[0, 1], 9, Settings::OFF), refused(Refusal::BadMapByte, 15));
    assert_eq!(trial(&A, &map, &[1, 0], 9, Settings::OFF).map(|trial| trial.made), Ok(12));
}

#[test]
fn another_map_is_tried_as_it_is() {
    // Everything is granted, unless a share is spent, and forbidden states are passed over.
    let zeros = [0; STATES + 9];
    assert_eq!(trial(&A, &zeros, &[0, 1], 9, Settings::OFF), Ok(tried(8, &[[4, 0, 0, 0], [4, 0, 0, 0]], 0)));
    assert_eq!(trial(&A, &zeros, &[0, 0, 1], 9, Settings::new(1, 2)), Ok(tried(12, &[[4, 0, 0, 3], [4, 0, 0, 0]], 1)));
    // Everything but the start is forbidden, or unsafe.
    for (byte, row) in [(1, [0, 50, 0, 0]), (2, [0, 0, 50, 0]), (3, [0, 0, 50, 0])] {
        let mut map = [byte; STATES];
        map[0] = 0;
        assert_eq!(trial(&A, &map, &[1, 0, 1], 25, Settings::new(1, 1)), Ok(tried(75, &[row.map(|bids| bids / 2), row], 0)));
    }
}

#[test]
fn the_longest_trials_are_counted_to_the_last_bid() {
    let map = map_of(&E);
    let most = MOST_BIDS as u32;
    // Task 0 is alone, and soon finished.
    assert_eq!(trial(&E, &map, &[0; 255], u16::MAX, Settings::OFF), Ok(tried(MOST_BIDS, &[[2, 0, 0, 0]], MOST_BIDS - 2)));
    // Task 1 has its share, and waits for ever for others, which don't ask.
    assert_eq!(trial(&E, &map, &[1; 255], u16::MAX, Settings::new(1, 255)), Ok(tried(MOST_BIDS, &[[0; 4], [1, 0, 0, most - 1]], 0)));
}
