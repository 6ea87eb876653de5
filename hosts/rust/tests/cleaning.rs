//! Sets that were stored with devices which no task claims: refused with 24 by every call but the cleaning, which takes the devices out.

mod sets;

use arbiter::plain::{analyse, clean, read, NOT_ANALYSED};
use arbiter::{is_claimed, Refusal, Set};
use sets::{planned, refused, users_of_one_device, A, D, E, R, U};

const UNWRITTEN: u32 = 0xAAAA_AAAA;

/// Example g (`docs/SCOPE.md`, "Desk examples") as it is, and as it was: a device that nobody claims.
const G: [u32; 5] = [0x10000008, 0x20000000, 0x30000000, 0x40000000, 0x50000004];
const OLD_G: [u32; 3] = [0x10000008, 0x20000000, 0x50000002];

/// The sets in which every device is claimed, one of them without any.
fn clean_sets() -> [&'static [u32]; 7] {
    [&A, &D, &E, &R, &U, &G, &[0x20000000, 0x50000001]]
}

/// The set with a device of this capacity that no task claims as device `at`, those from there on being numbered one higher.
fn with_unclaimed(set: &[u32], at: usize, capacity: u32) -> Vec<u32> {
    let moved = |word: u32| match (word >> 28, word & 0x0FFF_FFFF) {
        (3 | 4, device) if device as usize >= at => word + 1,
        (5, _) => word + 1,
        _ => word,
    };
    let mut words: Vec<u32> = set.iter().map(|&word| moved(word)).collect();
    words.insert(at, 0x10000000 + capacity);
    words
}

fn devices(set: &[u32]) -> usize {
    set.iter().filter(|&&word| word >> 28 == 1).count()
}

/// What is written, in a slice that just fits.
fn cleaned(set: &[u32], length: usize) -> Vec<u32> {
    let mut words = vec![UNWRITTEN; length];
    assert_eq!(clean(set, &mut words), Ok(length));
    words
}

#[test]
fn the_old_half_of_example_g_loses_its_device_and_the_new_one_keeps_it() {
    assert_eq!(read(&OLD_G), refused(Refusal::UnclaimedDevice, 0));
    assert_eq!(cleaned(&OLD_G, 2), [0x20000000, 0x50000001]);
    assert_eq!(cleaned(&G, 5), G);
    let (mut map, mut plan) = ([NOT_ANALYSED; 3], [0; 1]);
    assert_eq!(analyse(&G, &mut map, &mut plan), planned(1, 0, 0));
    assert_eq!((map, plan), ([0; 3], [0x50000000]));
}

#[test]
fn a_clean_set_comes_back_word_for_word() {
    for set in clean_sets() {
        assert_eq!(cleaned(set, set.len()), set);
    }
}

#[test]
fn one_device_is_taken_out_wherever_it_stands() {
    for set in clean_sets() {
        for at in 0..=devices(set) {
            let old = with_unclaimed(set, at, 8);
            assert_eq!(read(&old), refused(Refusal::UnclaimedDevice, at));
            assert_eq!(cleaned(&old, set.len()), set);
        }
    }
}

#[test]
fn several_devices_are_taken_out_and_the_lowest_is_told() {
    for set in clean_sets() {
        for first in 0..=devices(set) {
            for second in first..=devices(set) {
                let old = with_unclaimed(&with_unclaimed(set, second, 1), first, 8);
                assert_eq!(read(&old), refused(Refusal::UnclaimedDevice, first));
                assert_eq!(cleaned(&old, set.len()), set);
            }
        }
    }
    // 16 devices of which the last alone is claimed, by the last of eight tasks alone.
    let mut old = vec![0x10000001; 16];
    old.extend([0x20000000; 8]);
    old.extend([0x3000000F, 0x4000000F, 0x5000001A]);
    assert_eq!(read(&old), refused(Refusal::UnclaimedDevice, 0));
    let mut new = vec![0x10000001];
    new.extend([0x20000000; 8]);
    new.extend([0x30000000, 0x40000000, 0x5000000B]);
    assert_eq!(cleaned(&old, new.len()), new);
}

#[test]
fn a_short_slice_is_refused_and_a_long_one_keeps_what_lies_beyond() {
    let old = with_unclaimed(&D, 1, 2);
    for length in 0..D.len() {
        let mut slice = vec![UNWRITTEN; length];
        assert_eq!(clean(&old, &mut slice), refused(Refusal::CleanTooShort, D.len()));
        assert_eq!(slice, vec![UNWRITTEN; length]);
    }
    for length in D.len()..D.len() + 4 {
        let mut slice = vec![UNWRITTEN; length];
        assert_eq!(clean(&old, &mut slice), Ok(D.len()));
        assert_eq!(slice[..D.len()], D);
        assert_eq!(slice[D.len()..], vec![UNWRITTEN; length - D.len()]);
    }
}

#[test]
fn what_was_refused_before_still_is_and_leaves_the_slice() {
    let too_large = with_unclaimed(&users_of_one_device(2, &[127, 127, 1]), 0, 1);
    assert_eq!(read(&too_large), refused(Refusal::UnclaimedDevice, 0));
    let cases: [(&[u32], Refusal, usize); 6] = [
        (&[], Refusal::NoWords, 0),
        (&[0; 4097], Refusal::TooManyWords, 4096),
        (&[0x10000001, 0x20000000, 0x30000001], Refusal::FieldNotAllowed, 2),
        (&[0x10000001, 0x10000001, 0x20000000, 0x30000000, 0x50000004], Refusal::StillHeld, 4),
        (&[0x10000001, 0x20000000], Refusal::NoEnd, 2),
        // Its grid is that of the tasks, which no cleaning makes smaller.
        (&too_large, Refusal::GridTooLarge, too_large.len() - 1),
    ];
    for (set, refusal, place) in cases {
        for length in [0, 3, 600] {
            let mut slice = vec![UNWRITTEN; length];
            assert_eq!(clean(set, &mut slice), refused(refusal, place));
            assert_eq!(slice, vec![UNWRITTEN; length]);
        }
    }
}

#[test]
fn a_cleaned_set_is_read_from_the_slice() {
    let old = with_unclaimed(&D, 0, 3);
    let mut slice = vec![UNWRITTEN; old.len()];
    assert_eq!(Set::clean(&old, &mut slice), Set::read(&D));
    assert_eq!(slice[D.len()..], [UNWRITTEN]);
    assert_eq!(Set::clean(&old, &mut slice[..3]), refused(Refusal::CleanTooShort, D.len()));
    assert_eq!(Set::clean(&old[..5], &mut slice), refused(Refusal::NoEnd, 5));
}

#[test]
fn the_devices_that_are_kept_are_those_that_are_claimed() {
    for at in 0..=devices(&D) {
        let old = with_unclaimed(&D, at, 1);
        let kept: Vec<bool> = (0..=devices(&D)).map(|device| is_claimed(&old, device)).collect();
        assert_eq!(kept, (0..=devices(&D)).map(|device| device != at).collect::<Vec<bool>>());
    }
    for absent in [2, 16, usize::MAX] {
        assert!(!is_claimed(&A, absent));
    }
    assert!(!is_claimed(&[], 0));
}

#[cfg(feature = "alloc")]
#[test]
fn a_service_goes_on_with_the_cleaned_set() {
    use arbiter::{cleaned, Analysed, BidAnswer, Record, Service, Settings};
    let old = with_unclaimed(&A, 1, 4);
    assert_eq!(Analysed::new(&old[..]), refused(Refusal::UnclaimedDevice, 1));
    assert_eq!(cleaned(&old).as_deref(), Ok(&A[..]));
    assert_eq!(cleaned(&old[..5]), refused(Refusal::NoEnd, 5));

    // A record that the old set's service left, and the bids of example b from there; what was device 2 is device 1 now.
    let analysed = Analysed::new(cleaned(&old).unwrap()).unwrap();
    let mut service = Service::resume(analysed, Record::new([1, 0, 0, 0, 0, 0, 0, 0], 1, [1, 0, 0, 0, 0, 0, 0, 0])).unwrap();
    let answers = [1, 0, 1].map(|task| service.bid(task, Settings::OFF).unwrap());
    assert_eq!(answers, [BidAnswer::Held { rank: 6 }, BidAnswer::Granted, BidAnswer::Busy { device: 1 }]);
}
