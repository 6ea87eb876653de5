//! Shakes the library: random, damaged and senseless inputs through every call, each answer and every byte afterwards held to `reference`. What the package for Rust
//! makes of accepted sets is held to it too.
//!
//!     shake [INPUTS [SEED]]        so many lists of words, several calls with each; then 100 times as many bids on a few records, at most 10 million
//!     shake replay SEED INPUT      one input of a run again, alone
//!
//! It ends with status 1 at the first difference, which it prints with all that the call was made with, and also if some answer never came.

mod cases;
mod checker;
mod cleaning;
mod fenced;
mod long_run;
mod package;
mod per_thousand;
mod plan_cases;
mod questions;
mod random;
mod reference;
mod shares;
mod stored_plan;
mod trial_cases;
mod trials;
mod units;

use arbiter::sys;
use checker::{Checker, Seen, CALLS};
use long_run::Run;
use plan_cases::FAULTS;
use random::Random;
use reference::{Record, Set, Settings, Worked};

const INPUTS: u64 = 250_000;
const MOST_BIDS: u64 = 10_000_000;
const SEED: u64 = 0x7469_726C_757A_6B61;
const TRIALS: u64 = 0x7472_6961_6C73;

/// The analysis needs some 300 KiB; a call that took much more would end this thread.
const STACK: usize = 1 << 20;

fn main() {
    let arguments: Vec<String> = std::env::args().skip(1).collect();
    let number = |at: usize, otherwise: u64| -> u64 {
        match arguments.get(at) {
            None => otherwise,
            Some(text) => text.parse().unwrap_or_else(|_| {
                eprintln!("usage: shake [INPUTS [SEED]], or shake replay SEED INPUT");
                std::process::exit(2);
            }),
        }
    };
    // The calls below are made as they are, so their version is looked at here.
    let library = unsafe { sys::arbiter_version() };
    if library != sys::VERSION {
        println!("FAIL: the library's version is {library}, not {}", sys::VERSION);
        std::process::exit(1);
    }
    let replay = arguments.first().is_some_and(|word| word == "replay");
    let (first, last, seed) = if replay { (number(2, 0), number(2, 0) + 1, number(1, SEED)) } else { (0, number(0, INPUTS), number(1, SEED)) };
    let thread = std::thread::Builder::new().stack_size(STACK).spawn(move || {
        let mut checker = Checker::new();
        for input in first..last {
            shake(&mut checker, seed, input);
        }
        if replay {
            println!("shake: input {first} of seed {seed}, {} calls agree", calls(&checker.seen));
            return;
        }
        print_table(&checker.seen);
        println!("{}", checker.sets);
        println!("{}", checker.parts);
        println!("{}", checker.asked);
        println!("{}", checker.units);
        println!("{}", checker.cleanings);
        println!("{}", checker.shares);
        println!("{}", checker.trials);
        let long = long_runs(seed, (100 * last).min(MOST_BIDS));
        long_trials(last);
        all_seen(&checker, last);
        let (granted, waited) = (checker.shares.releases, checker.shares.releases_spent);
        println!("in service {granted} bids that were to release something were granted, and {waited} waited for their share; none was busy or held");
        println!("shake: {last} inputs, seed {seed}, {} calls and {long} bids on long lists agree", calls(&checker.seen));
    });
    if thread.unwrap().join().is_err() {
        std::process::exit(1);
    }
}

/// All calls for one input.
fn shake(checker: &mut Checker, seed: u64, input: u64) {
    let mut random = Random::new(seed, input);
    let random = &mut random;
    // Questions to plans draw from another one, so that they don't move what the other calls are made with.
    let mut asking = Random::new(!seed, input);
    // And so do trials.
    let mut trying = Random::new(seed ^ TRIALS, input);
    let words = cases::words(random, input);
    let worked = Worked::new(&words);
    checker.input = format!("to see it again: shake replay {seed} {input}");
    checker.read(random, &words, &worked);
    checker.units.count(&words, &worked);
    questions::of_no_set(checker, &mut asking);
    cleaning::of_list(checker, random, &words, &worked);
    match &worked.set {
        Err(_) => {
            refused(checker, random, &words, &worked);
            trials::of_no_set(checker, &mut trying, &words, &worked);
        }
        Ok(set) => {
            checker.sets.count(&words, &worked);
            analyses(checker, random, &words, &worked);
            checker.in_units(&words, units::fault(random, &words, &worked.map, &worked.plan));
            bids(checker, random, &words, &worked, set);
            rounds(checker, random, &words, &worked, set);
            if let Some((map, record, task, settings)) = cases::shared_bid(random, set, &worked.map) {
                checker.bid(random, &words, &worked, &map, record, task, settings);
            }
            for _ in 0..3 {
                let map = cases::lent_map(random, &worked.map);
                let settings = cases::settings(random);
                let record = cases::record(random, set, &map, settings);
                let task = cases::unfinished_task(random, set, &record);
                checker.bid(random, &words, &worked, &map, record, task, settings);
                let left: usize = (0..set.tasks.len()).map(|task| set.length(task).saturating_sub(record.positions[task] as usize)).sum();
                let room = cases::length(random, left);
                checker.route(random, &words, &worked, &map, record, room);
            }
            let settings = cases::settings(random);
            let record = cases::record(random, set, &worked.map, settings);
            checker.again(random, &words, &worked, record);
            questions::of_set(checker, &mut asking, &worked, set);
            trials::of_set(checker, &mut trying, &words, &worked, set);
            if let Some((old, worked)) = cleaning::and_back(checker, random, &words) {
                checker.read(random, &old, &worked);
                refused(checker, random, &old, &worked);
                trials::of_no_set(checker, &mut trying, &old, &worked);
            }
            // Of one set in four, for the time that it takes.
            if random.one_in(4) {
                checker.package(&words, package::check(random, &words, &worked, set));
            }
            if trying.one_in(16) {
                checker.package(&words, package::check_trials(&mut trying, &words, &worked, set));
            }
        }
    }
}

/// A refused list must be refused by every call, whatever is lent beside it.
fn refused(checker: &mut Checker, random: &mut Random, words: &[u32], worked: &Worked) {
    let (map_len, plan_len) = (random.below(300), random.below(100));
    checker.analyse(random, words, worked, map_len, plan_len);
    let map: Vec<u8> = (0..random.below(50)).map(|_| random.below(5) as u8).collect();
    let record = cases::any_record(random);
    let task = cases::task(random, 8);
    let settings = cases::settings(random);
    checker.bid(random, words, worked, &map, record, task, settings);
    checker.again(random, words, worked, record);
    let room = random.below(40);
    checker.route(random, words, worked, &map, record, room);
}

/// Slices that fit exactly, and some of any length.
fn analyses(checker: &mut Checker, random: &mut Random, words: &[u32], worked: &Worked) {
    let (grid, plan) = (worked.map.len(), worked.plan.len());
    checker.analyse(random, words, worked, grid, plan);
    checker.analyse(random, words, worked, grid, plan - 1);
    let (map_len, plan_len) = (cases::length(random, grid), cases::length(random, plan));
    checker.analyse(random, words, worked, map_len, plan_len);
    if random.one_in(50) {
        checker.analyse(random, words, worked, 65536, plan + 1000);
    }
}

/// Bids from a fresh record with the set's own map, to the end and once again if they get there. Half of the lists keep their settings, the others change them, also to
/// such as aren't allowed.
fn bids(checker: &mut Checker, random: &mut Random, words: &[u32], worked: &Worked, set: &Set) {
    let mut record = Record::FRESH;
    // As many as may well reach the end on a small set, and a few on a large one.
    let count = if random.one_in(8) { (4 * set.actions() + 4).min(120) } else { random.between(1, 6) };
    let mut settings = cases::allowed_settings(random);
    let kept = random.one_in(2);
    for _ in 0..count {
        if record.positions == set.end() && random.one_in(2) {
            record = checker.again(random, words, worked, record);
        }
        if !kept && random.one_in(2) {
            settings = cases::settings(random);
        }
        let task = cases::task(random, set.tasks.len());
        let (before, spent) = (record, checker.shares.spent());
        record = checker.bid(random, words, worked, &worked.map, record, task, settings);
        let waits = checker.shares.spent() > spent;
        if set.releases_next(&before.positions, task) {
            release(checker, words, task, settings, before, record, waits);
        }
    }
}

/// In service a release is granted, unless the settings are refused or the task waits, since its share is spent; a share that isn't less than the window never is.
fn release(checker: &mut Checker, words: &[u32], task: usize, settings: Settings, before: Record, after: Record, waits: bool) {
    if !settings.are_allowed() || before.window_grants() >= settings.window {
        return;
    }
    let granted = after.positions[task] == before.positions[task] + 1;
    let may_wait = !settings.leave_share(&before, task) && settings.share < settings.window;
    checker.shares.releases += u64::from(granted);
    checker.shares.releases_spent += u64::from(waits);
    checker.in_service(words, granted || (waits && may_wait), || format!("a release of task {task} with {settings:?} isn't granted on {before:?}"));
}

/// As many rounds as the set has actions, with settings that are kept, bring every task home. Of one small set in eight, for the time that it takes.
fn rounds(checker: &mut Checker, random: &mut Random, words: &[u32], worked: &Worked, set: &Set) {
    const MOST_BIDS: usize = 600;
    let (tasks, actions) = (set.tasks.len(), set.actions());
    if !random.one_in(8) || tasks * actions > MOST_BIDS {
        return;
    }
    let settings = cases::allowed_settings(random);
    let mut record = Record::FRESH;
    let spent = checker.shares.spent();
    for _ in 0..actions {
        for task in cases::round(random, tasks) {
            record = checker.bid(random, words, worked, &worked.map, record, task, settings);
        }
    }
    checker.in_service(words, record.positions == set.end(), || format!("after {actions} rounds with {settings:?} not every task is finished: {record:?}"));
    checker.shares.rounds += 1;
    checker.shares.rounds_spent += u64::from(checker.shares.spent() > spent);
}

/// Very many bids on one record for each of several settings; how many in all. Example a has 8 grants in a turn, the crossings 320, so that windows of every length
/// are used up. The last record is next to the wrap from the start.
fn long_runs(seed: u64, bids: u64) -> u64 {
    let on = |words: fn() -> Vec<u32>, share: u32, window: u32, bids: u64, first_grants: u32| {
        let settings = Settings { share, window };
        let run = Run { words: words(), settings, seed: seed + u64::from(share + 256 * window), bids, first_grants };
        let done = run.done().unwrap_or_else(|what| {
            println!("DIFFERS: {what}");
            std::process::exit(1);
        });
        println!(
            "one record with share {share} of window {window} from grant number {first_grants}: {} bids, {} of them granted, {} share spent, {} windows used up, {} agains, {} times past 4,294,967,295",
            done.bids, done.grants, done.spent, done.windows, done.agains, done.wraps
        );
        done
    };
    let long = [
        on(cases::example_a, 255, 255, bids / 4, 0),
        on(cases::example_a, 1, 2, bids / 4, 0),
        on(cases::example_a, 2, 4, bids / 4, 0),
        on(cases::many_crossings, 2, 7, bids / 8, 0),
        on(cases::many_crossings, 100, 255, bids / 8, 0),
    ];
    let wrapped = on(cases::example_a, 1, 2, 1000, 0xFFFF_FFF0);
    if wrapped.wraps == 0 {
        println!("FAIL: the grant number never went from 4,294,967,295 to 0");
        std::process::exit(1);
    }
    if long[0].spent > 0 || long[1..].iter().any(|done| done.spent == 0 || done.windows == 0) {
        println!("FAIL: a share of 255 was spent, or another never was, or a window was never used up");
        std::process::exit(1);
    }
    long.iter().map(|done| done.bids).sum()
}

/// Trials of very many bids, so that every tally and the total pass 16 bits. The longest that there are, which take longer, have the tests of the package and the header.
fn long_trials(inputs: u64) {
    let rounds = (inputs / 25).clamp(800, 65_535) as u16;
    for (what, words, lent) in trial_cases::long(rounds) {
        let bids = trials::long(&words, &lent).unwrap_or_else(|difference| {
            println!("DIFFERS: a trial of {rounds} rounds, {what}: {difference}");
            std::process::exit(1);
        });
        println!("one trial, {what}: {bids} bids");
    }
}

fn calls(seen: &Seen) -> u64 {
    seen.kinds.iter().flatten().sum()
}

const KINDS: [&str; 15] = [
    "refused",
    "accepted",
    "planned",
    "routed",
    "granted",
    "finished",
    "busy",
    "held",
    "restarted",
    "forbidden",
    "unsafe",
    "neither",
    "cleaned",
    "share spent",
    "tried",
];

fn print_table(seen: &Seen) {
    let line = |name: &str, counts: [u64; CALLS.len()]| {
        let cells: Vec<String> = counts.iter().map(|count| format!("{count:>9}")).collect();
        println!("{name:<12}{}", cells.join(""));
    };
    println!("{:<12}{}", "answer", CALLS.map(|call| format!("{call:>9}")).join(""));
    for (kind, name) in KINDS.iter().enumerate() {
        line(name, std::array::from_fn(|call| seen.kinds[call][kind]));
    }
    for number in 1..29 {
        line(&format!("refused {number}"), std::array::from_fn(|call| seen.refusals[call][number]));
    }
}

/// Every answer that docs/SCOPE.md gives a call, every sort of dead states, of parts per thousand, of shares and of trials, every fault of a plan and every sort of list with
/// units and of list to clean must have come, or the run shows less than it says. 15 is the printer's alone.
fn all_seen(checker: &Checker, inputs: u64) {
    let seen = &checker.seen;
    const OF_A_SET: [usize; 14] = [1, 2, 3, 4, 5, 6, 7, 28, 8, 9, 10, 11, 12, 24];
    // The last column: the refusals of a set, if the call is lent one. By the former rules, which cleaning goes by, there is no 24.
    let expected: [(&[usize], &[usize], &[usize]); CALLS.len()] = [
        (&[1], &[], &OF_A_SET),
        (&[2], &[13, 14], &OF_A_SET),
        (&[4, 5, 6, 7, 13], &[13, 16, 17, 18, 26], &OF_A_SET),
        (&[8], &[16, 19], &OF_A_SET),
        (&[3], &[13, 16, 18, 20, 21], &OF_A_SET),
        (&[9, 10, 11], &[22, 23], &[]),
        (&[12], &[25], &OF_A_SET[..13]),
        (&[14], &[13, 16, 18, 26, 27], &OF_A_SET),
    ];
    let mut missing: Vec<String> = checker.sets.missing().chain(checker.parts.missing()).chain(checker.shares.missing()).collect();
    missing.extend(checker.trials.missing());
    missing.extend(checker.cleanings.missing(1 + inputs / 2000));
    missing.extend(checker.units.missing(1 + inputs / 2000));
    for ((name, _), _) in FAULTS.iter().zip(checker.asked.faults).filter(|(_, count)| *count == 0) {
        missing.push(format!("a plan with the fault {name}"));
    }
    for (call, (kinds, refusals, of_the_set)) in expected.iter().enumerate() {
        for &kind in kinds.iter() {
            if seen.kinds[call][kind] == 0 {
                missing.push(format!("{} {}", CALLS[call], KINDS[kind]));
            }
        }
        for &number in of_the_set.iter().chain(refusals.iter()) {
            if seen.refusals[call][number] == 0 {
                missing.push(format!("{} refused {}", CALLS[call], number));
            }
        }
    }
    if !missing.is_empty() {
        println!("FAIL: too few inputs, not seen: {}", missing.join(", "));
        std::process::exit(1);
    }
}
