//! A set from its bytes through analysis and service to a restart, by `Analysed` and `Service`.

mod sets;

use arbiter::{plain, sys, words_of, Action, Analysed, BidAnswer, BoxKind, PerThousand, Record, Refusal, Service, Settings};
use sets::{planned, refused, users_of_one_device, A, D, E, PLAN, STATES};

fn in_service(set: &[u32]) -> Service {
    Service::start(Analysed::new(set).unwrap())
}

#[test]
fn example_a_is_analysed() {
    let analysed = Analysed::new(A).unwrap();
    assert_eq!(analysed.set().words(), A);
    assert_eq!((analysed.set().tasks(), analysed.set().states()), (2, STATES));
    assert_eq!(analysed.plan().words(), PLAN);
    let mut map = [plain::NOT_ANALYSED; STATES];
    assert_eq!(plain::analyse(&A, &mut map, &mut [0; PLAN.len()]), planned(PLAN.len(), 50, 0));
    assert_eq!(analysed.map(), map);
    assert_eq!(analysed.per_thousand(), PerThousand { quotient: 50, remainder: 0 });
}

#[test]
fn example_d_has_the_bytes_that_it_has() {
    let analysed = Analysed::new(&D[..]).unwrap();
    let count = |bytes: &[u8]| analysed.map().iter().filter(|byte| bytes.contains(byte)).count();
    assert_eq!((count(&[sys::FORBIDDEN]), count(&[sys::UNSAFE, sys::DEAD]), count(&[sys::OPEN])), (10, 6, 33));
    assert_eq!(analysed.per_thousand(), PerThousand { quotient: 153, remainder: 33 });
    assert_eq!(Analysed::new(E).unwrap().per_thousand(), PerThousand { quotient: 0, remainder: 0 });
}

#[test]
fn plans_of_every_length_are_had_whole() {
    // So many forbidden boxes of three words each, and END: under 1,024 words, next to it, and doubled once and six times.
    for (times, boxes) in [(18, 324), (19, 361), (127, 16_129)] {
        let set = users_of_one_device(1, &[times, times]);
        let analysed = Analysed::new(set).unwrap();
        assert_eq!(analysed.plan().words().len(), 3 * boxes + 1);
        assert_eq!(analysed.per_thousand(), PerThousand { quotient: 0, remainder: 0 });
        assert_eq!(analysed.plan().words().last(), Some(&(0x50000000 + 3 * boxes as u32)));
        assert_eq!(analysed.plan().boxes().filter(|plan_box| plan_box.kind == BoxKind::Forbidden { device: 0 }).count(), boxes);
    }
}

#[test]
fn faulty_sets_are_not_analysed() {
    assert_eq!(Analysed::new([]), refused(Refusal::NoWords, 0));
    assert_eq!(Analysed::new(&A[..12]), refused(Refusal::NoEnd, 12));
    assert_eq!(Analysed::new(users_of_one_device(2, &[127, 127, 1])).map(|_| ()), refused(Refusal::GridTooLarge, 514));
}

#[test]
fn a_service_answers_example_b_and_tells_its_state() {
    let mut service = in_service(&A);
    let off = Settings::OFF;
    assert_eq!(service.bid(0, off), Ok(BidAnswer::Granted));
    assert_eq!(service.state().last_action(0), Some(Action::Claim { device: 0, units: 1 }));
    assert_eq!(service.bid(1, off), Ok(BidAnswer::Held { rank: 6 }));
    let state = service.analysed().set().state_of_rank(6).unwrap();
    assert_eq!(state.positions(), [1, 1, 0, 0, 0, 0, 0, 0]);
    assert_eq!(service.bid(0, off), Ok(BidAnswer::Granted));
    assert_eq!(service.bid(1, off), Ok(BidAnswer::Busy { device: 1 }));
    assert_eq!(service.state().holders(1).collect::<Vec<_>>(), [0]);
    assert_eq!((service.bid(0, off), service.bid(1, off)), (Ok(BidAnswer::Granted), Ok(BidAnswer::Granted)));
    assert_eq!(service.state().holders(1).collect::<Vec<_>>(), [1]);
    assert_eq!(service.record(), &Record::new([3, 1, 0, 0, 0, 0, 0, 0], 4, [3, 1, 0, 0, 0, 0, 0, 0]));
    assert_eq!(service.state().set(), service.analysed().set());
}

#[test]
fn a_service_refuses_tasks_that_are_not_there_and_an_early_again() {
    let mut service = in_service(&A);
    assert_eq!(service.bid(2, Settings::OFF), refused(Refusal::NoSuchTask, 2));
    assert_eq!(service.again(), refused(Refusal::NotAtEnd, 0));
    assert_eq!(service.record(), &Record::fresh());
}

#[test]
fn a_service_follows_its_route_and_starts_again() {
    let mut service = in_service(&D);
    let route = service.route().unwrap();
    assert_eq!(route.len(), 12);
    for task in route {
        let next = service.state().next_action(task.into());
        assert_eq!(service.bid(task.into(), Settings::OFF), Ok(BidAnswer::Granted));
        assert_eq!(service.state().last_action(task.into()), next);
    }
    assert_eq!([0, 1].map(|task| service.bid(task, Settings::OFF)), [Ok(BidAnswer::Finished); 2]);
    assert_eq!(service.route(), Ok(vec![]));
    assert_eq!(service.again(), Ok(()));
    assert_eq!(service.record(), &Record::new([0; 8], 12, [0; 8]));
}

#[test]
fn a_service_goes_on_from_a_stored_record_and_from_no_other() {
    let resumed = |positions, counts| Service::resume(Analysed::new(A).unwrap(), Record::new(positions, 7, counts)).map(|service| service.record().clone());
    let (open, counts) = ([3, 1, 0, 0, 0, 0, 0, 0], [255, 2, 0, 0, 0, 0, 0, 0]);
    assert_eq!(resumed(open, counts), Ok(Record::new(open, 7, counts)));
    assert_eq!(resumed([4, 4, 0, 0, 0, 0, 0, 0], [0; 8]), Ok(Record::new([4, 4, 0, 0, 0, 0, 0, 0], 7, [0; 8])));
    // A position over the task's actions, one of an absent task, a forbidden state and a dead one.
    for positions in [[5, 0, 0, 0, 0, 0, 0, 0], [0, 0, 0, 0, 0, 0, 0, 1], [2, 2, 0, 0, 0, 0, 0, 0]] {
        assert_eq!(resumed(positions, [0; 8]), refused(Refusal::BadRecord, 0));
    }
    assert_eq!(resumed([1, 1, 0, 0, 0, 0, 0, 0], [0; 8]), refused(Refusal::NoRoute, 6));
    // A count of an absent task.
    for task in 2..8 {
        assert_eq!(resumed(open, std::array::from_fn(|other| u8::from(other == task))), refused(Refusal::BadRecord, 0));
    }

    let settings = Settings::new(1, 2);
    let stored = {
        let mut service = in_service(&A);
        assert_eq!(service.bid(1, settings), Ok(BidAnswer::Granted));
        service.record().to_bytes()
    };
    let mut service = Service::resume(Analysed::new(A).unwrap(), Record::from_bytes(stored)).unwrap();
    // Example c, and the second bid of example b the other way round; the counts go on from the stored ones, and here close their window.
    assert_eq!(service.route(), Ok(vec![1, 1, 0, 1, 0, 0, 0]));
    assert_eq!(service.bid(0, settings), Ok(BidAnswer::Held { rank: 6 }));
    assert_eq!(service.record().counts(), [0, 1, 0, 0, 0, 0, 0, 0]);
    assert_eq!(service.bid(1, settings), Ok(BidAnswer::Granted));
    assert_eq!(service.record(), &Record::new([0, 2, 0, 0, 0, 0, 0, 0], 2, [0; 8]));
}

#[test]
fn a_service_is_resumed_from_exactly_the_open_states() {
    let analysed = Analysed::new(D).unwrap();
    for (rank, &byte) in analysed.map().iter().enumerate() {
        let record = Record::new(analysed.set().state_of_rank(rank).unwrap().positions(), 0, [0; 8]);
        assert_eq!(Service::resume(analysed.clone(), record).is_ok(), byte == sys::OPEN, "rank {rank}");
    }
}

#[test]
fn settings_are_tried_beside_a_service_and_change_nothing_in_it() {
    let mut service = in_service(&A);
    let (settings, map) = (Settings::new(1, 2), service.analysed().map().to_vec());
    for task in [0, 1, 0, 1] {
        let _ = service.bid(task, settings).unwrap();
        let before = service.record().clone();
        // From the start, whatever the record's state is.
        for settings in [Settings::OFF, settings, Settings::new(2, 4), Settings::new(0, 1)] {
            for order in [&[][..], &[0], &[0, 1], &[1, 1, 0], &[0, 2]] {
                for rounds in [0, 1, 2, u16::MAX] {
                    assert_eq!(service.analysed().trial(order, rounds, settings), plain::trial(&A, &map, order, rounds, settings));
                }
            }
        }
        assert_eq!(service.record(), &before);
    }
    let trial = service.analysed().trial(&[0, 1], 2, settings).unwrap();
    assert_eq!((trial.made, trial.rows[0].granted, trial.rows[1].busy, trial.rows[1].held, trial.finished), (4, 2, 1, 1, 0));
}

#[test]
fn bytes_become_words_lowest_first() {
    assert_eq!(words_of(&[]), Ok(vec![]));
    assert_eq!(words_of(&[0x0C, 0, 0, 0x50, 1, 2, 3, 4]), Ok(vec![0x5000000C, 0x04030201]));
    for length in 5..8 {
        assert_eq!(words_of(&[0; 8][..length]), refused(Refusal::BytesNotWords, 1));
    }
    assert_eq!(words_of(&[0; 16_384]).map(|words| words.len()), Ok(4096));
    // Too long goes first.
    assert_eq!(words_of(&[0; 16_385]), refused(Refusal::TooManyWords, 4096));
}
