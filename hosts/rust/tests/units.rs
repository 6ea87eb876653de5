//! Claims of more than one unit: the layout, its refusals, what is forbidden, what a service answers and what a cleaning keeps.

mod sets;

use arbiter::plain::{self, again, analyse, clean, read, route, trial, NOT_ANALYSED};
use arbiter::{is_claimed, Action, BidAnswer, Record, Refusal, Set, Settings, State};
use sets::{planned, refused, GATEWAY};

const TASK: u32 = 0x20000000;

fn device(capacity: u32) -> u32 {
    0x10000000 + capacity
}

fn claim(units: u32, device: u32) -> u32 {
    0x30000000 + ((units - 1) << 16) + device
}

fn release(device: u32) -> u32 {
    0x40000000 + device
}

/// The words with END behind them.
fn ended(words: &[u32]) -> Vec<u32> {
    [words, &[0x50000000 + words.len() as u32]].concat()
}

/// Tasks that claim so many units of one device of this capacity, and release it.
fn users(capacity: u32, units: &[u32]) -> Vec<u32> {
    let mut words = vec![device(capacity)];
    words.extend(units.iter().flat_map(|&units| [TASK, claim(units, 0), release(0)]));
    ended(&words)
}

/// The map and the plan of a set.
fn analysed(set: &[u32]) -> (Vec<u8>, Vec<u32>) {
    let (mut map, mut plan) = (vec![NOT_ANALYSED; read(set).unwrap()], vec![0; 1000]);
    let length = analyse(set, &mut map, &mut plan).unwrap().words;
    plan.truncate(length);
    (map, plan)
}

fn at<'a>(set: &'a [u32], record: &Record) -> State<'a> {
    Set::read(set).unwrap().state(record.positions()).unwrap()
}

#[test]
fn a_word_without_extra_units_claims_one() {
    assert_eq!([claim(1, 5), claim(2, 0), claim(256, 15)], [0x30000005, 0x30010000, 0x30FF000F]);
    let words = users(3, &[1, 2, 3]);
    let set = Set::read(&words).unwrap();
    let claims: Vec<Action> = (0..3).map(|task| set.actions(task).next().unwrap()).collect();
    assert_eq!(claims, [1, 2, 3].map(|units| Action::Claim { device: 0, units }));
    assert_eq!(set.actions(2).last(), Some(Action::Release { device: 0 }));
    assert_eq!(set.capacities().collect::<Vec<_>>(), [3]);
}

#[test]
fn a_claim_of_all_units_is_read_and_one_more_is_refused() {
    for capacity in 1..=8 {
        assert_eq!(read(&users(capacity, &[capacity])), Ok(3));
        for more in [1, 2, 8, 255 - capacity, 256 - capacity] {
            assert_eq!(read(&users(capacity, &[capacity + more])), refused(Refusal::TooManyUnits, 2), "{more} more than {capacity}");
        }
    }
}

#[test]
fn each_fault_of_a_claim_has_its_order() {
    // Behind two devices, of capacities 2 and 1; with the refusal and its place.
    let of_task = |actions: &[u32]| ended(&[&[device(2), device(1), TASK], actions].concat());
    let cases: [(&[u32], Refusal, usize); 13] = [
        (&[claim(1, 2)], Refusal::FieldNotAllowed, 3),
        (&[claim(2, 0x10)], Refusal::FieldNotAllowed, 3),
        (&[claim(2, 0x100)], Refusal::FieldNotAllowed, 3),
        (&[claim(2, 0) + 0x01000000], Refusal::FieldNotAllowed, 3),
        (&[claim(1, 0) + 0x08000000], Refusal::FieldNotAllowed, 3),
        // 6 before 28 and 8.
        (&[claim(256, 2)], Refusal::FieldNotAllowed, 3),
        (&[claim(2, 0), claim(3, 0) + 0x01000000], Refusal::FieldNotAllowed, 4),
        // 28 before 8, and 8 with units that the device has.
        (&[claim(2, 0), claim(3, 0)], Refusal::TooManyUnits, 4),
        (&[claim(2, 0), claim(256, 0)], Refusal::TooManyUnits, 4),
        (&[claim(2, 0), claim(2, 0)], Refusal::ClaimOfHeld, 4),
        // The capacity is that of the device which is named.
        (&[claim(2, 0), claim(2, 1)], Refusal::TooManyUnits, 4),
        // A RELEASE has no units.
        (&[claim(2, 0), release(0) + 0x00010000], Refusal::FieldNotAllowed, 4),
        (&[claim(1, 0), release(0) + 0x00FF0000], Refusal::FieldNotAllowed, 4),
    ];
    for (actions, refusal, place) in cases {
        assert_eq!(read(&of_task(actions)), refused(refusal, place), "{actions:X?}");
    }
    // 7 before 28: the 256th action.
    let mut words = vec![device(2), TASK];
    words.extend([claim(2, 0), release(0)].repeat(127));
    words.push(claim(1, 0));
    words.push(claim(3, 0));
    assert_eq!(read(&words), refused(Refusal::TooMany, 257));
    // 28 before the missing END; 5 before 28.
    assert_eq!(read(&[device(2), TASK, claim(3, 0)]), refused(Refusal::TooManyUnits, 2));
    assert_eq!(read(&[device(2), claim(3, 0)]), refused(Refusal::OutOfOrder, 1));
}

#[test]
fn every_call_with_a_set_refuses_too_many_units() {
    let words = users(2, &[1, 3]);
    let (mut map, mut plan, mut record) = ([NOT_ANALYSED; 9], [0xAAAA_AAAA; 9], Record::fresh());
    assert_eq!(analyse(&words, &mut map, &mut plan), refused(Refusal::TooManyUnits, 5));
    assert_eq!((map, plan), ([NOT_ANALYSED; 9], [0xAAAA_AAAA; 9]));
    assert_eq!(plain::bid(&mut record, &words, &map, 0, Settings::OFF), refused(Refusal::TooManyUnits, 5));
    assert_eq!(again(&mut record, &words), refused(Refusal::TooManyUnits, 5));
    assert_eq!(route(&record, &words, &map, &mut [0; 9]), refused(Refusal::TooManyUnits, 5));
    assert_eq!(trial(&words, &map, &[0], 1, Settings::OFF), refused(Refusal::TooManyUnits, 5));
    assert_eq!(clean(&words, &mut plan), refused(Refusal::TooManyUnits, 5));
    assert_eq!(plan, [0xAAAA_AAAA; 9]);
}

/// Of three, two, one and one unit of three: the first with each other, and the others all together, behind the smaller sets.
#[test]
fn a_box_belongs_to_holds_of_which_none_can_be_left_out() {
    let (map, plan) = analysed(&GATEWAY);
    #[rustfmt::skip]
    assert_eq!(
        plan,
        [
            0x60000000, 0x80000101, 0x80010101, 0x80020002, 0x80030002,
            0x60000000, 0x80000101, 0x80010002, 0x80020101, 0x80030002,
            0x60000000, 0x80000101, 0x80010002, 0x80020002, 0x80030101,
            0x60000000, 0x80000002, 0x80010101, 0x80020101, 0x80030101,
            0x50000014,
        ]
    );
    let set = Set::read(&GATEWAY).unwrap();
    for (rank, &byte) in map.iter().enumerate() {
        let state = set.state_of_rank(rank).unwrap();
        assert_eq!(byte == 1, state.units_in_use(0) > 3, "{:?}", state.positions());
    }
}

/// A device of two units: a radio patch needs both together, and two calls one each.
#[test]
fn a_patch_waits_until_both_channels_are_free() {
    let words = users(2, &[2, 1, 1]);
    let (map, _) = analysed(&words);
    let mut record = Record::fresh();
    let mut bid = |task: usize| plain::bid(&mut record, &words, &map, task, Settings::OFF).map(|answer| (answer, at(&words, &record).units_in_use(0)));
    assert_eq!(bid(1), Ok((BidAnswer::Granted, 1)));
    // One channel is free, which isn't enough. The device is named without the units.
    assert_eq!(bid(0), Ok((BidAnswer::Busy { device: 0 }, 1)));
    assert_eq!(bid(2), Ok((BidAnswer::Granted, 2)));
    assert_eq!(bid(1), Ok((BidAnswer::Granted, 1)));
    assert_eq!(bid(0), Ok((BidAnswer::Busy { device: 0 }, 1)));
    assert_eq!(bid(2), Ok((BidAnswer::Granted, 0)));
    assert_eq!(bid(0), Ok((BidAnswer::Granted, 2)));
    // And gives both back at once.
    assert_eq!(bid(0), Ok((BidAnswer::Granted, 0)));
}

#[test]
fn a_state_tells_the_units_that_each_task_holds() {
    let words = ended(&[device(8), device(2), TASK, claim(5, 0), claim(2, 1), release(0), claim(3, 0), release(1), release(0), TASK, claim(1, 0), release(0)]);
    let held: Vec<[usize; 2]> =
        (0..=6).map(|done| [0, 1].map(|device| at(&words, &Record::new([done, 1, 0, 0, 0, 0, 0, 0], 0, [0; 8])).units(0, device))).collect();
    assert_eq!(held, [[0, 0], [5, 0], [5, 2], [0, 2], [3, 2], [3, 0], [0, 0]]);
    let state = at(&words, &Record::new([4, 1, 0, 0, 0, 0, 0, 0], 0, [0; 8]));
    assert_eq!([state.units_in_use(0), state.units_in_use(1), state.units_in_use(2)], [4, 2, 0]);
    assert!(state.holds(0, 0) && state.holds(1, 0) && !state.holds(1, 1));
    assert_eq!([state.units(1, 0), state.units(1, 1), state.units(8, 0), state.units(0, 16)], [1, 0, 0, 0]);
}

/// Two gateways of two channels, claimed whole in opposite order: what one-unit claims of devices of capacity 1 are, example a.
#[test]
fn patches_that_cross_are_held_back() {
    let words = ended(&[device(2), device(2), TASK, claim(2, 0), claim(2, 1), release(1), release(0), TASK, claim(2, 1), claim(2, 0), release(0), release(1)]);
    let (map, plan) = analysed(&words);
    assert_eq!((map, plan), analysed(&sets::A));
    // With one channel each there is room for both.
    let words = ended(&[device(2), device(2), TASK, claim(1, 0), claim(1, 1), release(1), release(0), TASK, claim(1, 1), claim(1, 0), release(0), release(1)]);
    assert_eq!(analysed(&words), (vec![0; 25], vec![0x50000000]));
}

/// Three tasks in a ring, over a pool of four units. Task 0 waits for three of them, and of those who hold some task 2 alone is enough: task 1 is in the ring for the
/// device that it claims first, and its unsafe box begins there, and not where it claims of the pool.
#[test]
fn a_task_waits_for_as_few_holders_as_exceed_the_capacity() {
    #[rustfmt::skip]
    let words = ended(&[
        device(4), device(1), device(1),
        TASK, claim(1, 1), claim(3, 0), release(0), release(1),
        TASK, claim(1, 2), claim(1, 0), claim(1, 1), release(1), release(0), release(2),
        TASK, claim(2, 0), claim(1, 2), release(2), release(0),
    ]);
    let (_, plan) = analysed(&words);
    let first = plan.iter().position(|&word| word == 0x70000000).unwrap();
    assert_eq!(plan[first..first + 4], [0x70000000, 0x80000101, 0x80010102, 0x80020101]);
}

#[test]
fn a_cleaning_keeps_the_units() {
    let old = ended(&[device(1), device(3), device(8), device(2), TASK, claim(3, 1), claim(2, 3), release(3), release(1)]);
    assert_eq!(read(&old), refused(Refusal::UnclaimedDevice, 0));
    let kept: Vec<usize> = (0..4).filter(|&device| is_claimed(&old, device)).collect();
    assert_eq!(kept, [1, 3]);
    let wanted = ended(&[device(3), device(2), TASK, claim(3, 0), claim(2, 1), release(1), release(0)]);
    let mut words = vec![0xAAAA_AAAA; wanted.len()];
    assert_eq!(clean(&old, &mut words), Ok(wanted.len()));
    assert_eq!(words, wanted);
    assert_eq!(clean(&wanted, &mut words), Ok(wanted.len()));
    assert_eq!(words, wanted);
}

#[test]
fn a_trial_counts_the_bids_that_wait_for_units() {
    let words = users(2, &[2, 1]);
    let (map, _) = analysed(&words);
    // The call has a channel, so that the patch waits; with the release it goes on.
    let tried = trial(&words, &map, &[1, 0], 10, Settings::OFF).unwrap();
    assert_eq!((tried.made, tried.rows[0].granted, tried.rows[0].busy, tried.rows[1].granted, tried.rows[1].busy), (6, 2, 1, 2, 0));
    assert_eq!(analyse(&words, &mut [NOT_ANALYSED; 9], &mut [0; 4]), planned(4, 0, 0));
}
