//! Makes each call twice, through the library and through the reference, and compares the answers and every byte that was lent.

use crate::cleaning::Cleanings;
use crate::fenced::Fenced;
use crate::per_thousand::{self, Parts};
use crate::questions::Asked;
use crate::random::Random;
use crate::reference::{Analysis, Answer, Record, Settings, State, Tally, Trial, Worked};
use crate::shares::{self, Shares};
use crate::stored_plan;
use crate::trial_cases::Lent;
use crate::trials::{self, Trials};
use crate::units::Units;
use arbiter::sys;
use std::fmt::Debug;

pub const CALLS: [&str; 8] = ["read", "analyse", "bid", "again", "route", "locate", "clean", "trial"];

#[derive(Clone, Copy)]
pub enum Call {
    Read,
    Analyse,
    Bid,
    Again,
    Route,
    Locate,
    Clean,
    Trial,
}

/// How often each call gave each answer.
#[derive(Default)]
pub struct Seen {
    pub kinds: [[u64; 15]; CALLS.len()],
    pub refusals: [[u64; 29]; CALLS.len()],
}

/// The dead states of a set, if it has any.
const SORTS_OF_DEAD: [&str; 3] = ["all reached", "none reached", "some reached"];

/// What the accepted sets were like.
#[derive(Default)]
pub struct Sets {
    accepted: usize,
    with_forbidden: usize,
    with_unsafe: usize,
    /// By the sort of their dead states.
    with_dead: [usize; SORTS_OF_DEAD.len()],
    over_60000: usize,
    most_words: usize,
    largest_grid: usize,
    longest_plan: usize,
}

impl Sets {
    pub fn count(&mut self, words: &[u32], worked: &Worked) {
        self.accepted += 1;
        self.with_forbidden += worked.map.contains(&1) as usize;
        self.with_unsafe += worked.map.contains(&2) as usize;
        let has = |kind: u32| worked.plan.iter().any(|word| word >> 28 == kind);
        match (has(sys::DEAD_STATE), has(sys::UNREACHED_STATE)) {
            (true, false) => self.with_dead[0] += 1,
            (false, true) => self.with_dead[1] += 1,
            (true, true) => self.with_dead[2] += 1,
            (false, false) => {}
        }
        self.over_60000 += (worked.map.len() > 60_000) as usize;
        self.most_words = self.most_words.max(words.len());
        self.largest_grid = self.largest_grid.max(worked.map.len());
        self.longest_plan = self.longest_plan.max(worked.plan.len());
    }

    /// Which sorts of dead states no set had.
    pub fn missing(&self) -> impl Iterator<Item = String> + '_ {
        SORTS_OF_DEAD.iter().zip(self.with_dead).filter(|(_, count)| *count == 0).map(|(sort, _)| format!("a set with dead states, {sort}"))
    }
}

impl std::fmt::Display for Sets {
    fn fmt(&self, out: &mut std::fmt::Formatter) -> std::fmt::Result {
        let dead: Vec<String> = SORTS_OF_DEAD.iter().zip(self.with_dead).map(|(sort, count)| format!("{count} {sort}")).collect();
        write!(
            out,
            "{} accepted sets: {} with forbidden states, {} with dead ones ({}), {} with unsafe ones that aren't dead; {} grids over 60,000; \
             at most {} words, {} states, {} plan words",
            self.accepted,
            self.with_forbidden,
            self.with_dead.iter().sum::<usize>(),
            dead.join(", "),
            self.with_unsafe,
            self.over_60000,
            self.most_words,
            self.largest_grid,
            self.longest_plan
        )
    }
}

pub struct Checker {
    pub seen: Seen,
    pub sets: Sets,
    pub parts: Parts,
    pub asked: Asked,
    pub cleanings: Cleanings,
    pub units: Units,
    pub shares: Shares,
    pub trials: Trials,
    /// Said first when something differs.
    pub input: String,
}

fn told(answer: &sys::Answer) -> Answer {
    match answer.kind {
        sys::ACCEPTED => Answer::Accepted(answer.value),
        sys::PLANNED => Answer::Planned(answer.value),
        sys::ROUTED => Answer::Routed(answer.value),
        sys::GRANTED => Answer::Granted,
        sys::FINISHED => Answer::Finished,
        sys::BUSY => Answer::Busy(answer.value),
        sys::HELD => Answer::Held(answer.value),
        sys::SHARE_SPENT => Answer::ShareSpent,
        sys::RESTARTED => Answer::Restarted,
        sys::IN_FORBIDDEN_BOX => Answer::InForbiddenBox(answer.value),
        sys::IN_UNSAFE_BOX => Answer::InUnsafeBox(answer.value),
        sys::IN_NO_BOX => Answer::InNoBox,
        sys::CLEANED => Answer::Cleaned(answer.value),
        sys::TRIED => Answer::Tried(answer.value),
        _ => Answer::Refused(crate::reference::Refusal { number: answer.refusal, place: answer.value }),
    }
}

/// The answer as the library has to lay it out, every field of it.
pub fn laid_out(answer: Answer) -> sys::Answer {
    let of = |kind, value| sys::Answer { kind, refusal: 0, value };
    match answer {
        Answer::Refused(refusal) => sys::Answer { kind: sys::REFUSED, refusal: refusal.number, value: refusal.place },
        Answer::Accepted(grid) => of(sys::ACCEPTED, grid),
        Answer::Planned(words) => of(sys::PLANNED, words),
        Answer::Routed(length) => of(sys::ROUTED, length),
        Answer::Granted => of(sys::GRANTED, 0),
        Answer::Finished => of(sys::FINISHED, 0),
        Answer::Busy(device) => of(sys::BUSY, device),
        Answer::Held(rank) => of(sys::HELD, rank),
        Answer::ShareSpent => of(sys::SHARE_SPENT, 0),
        Answer::Restarted => of(sys::RESTARTED, 0),
        Answer::InForbiddenBox(index) => of(sys::IN_FORBIDDEN_BOX, index),
        Answer::InUnsafeBox(index) => of(sys::IN_UNSAFE_BOX, index),
        Answer::InNoBox => of(sys::IN_NO_BOX, 0),
        Answer::Cleaned(words) => of(sys::CLEANED, words),
        Answer::Tried(made) => of(sys::TRIED, made),
    }
}

/// An analysis in the same way.
pub fn laid_out_analysis(analysis: Analysis) -> sys::Analysis {
    sys::Analysis { answer: laid_out(analysis.answer), quotient: analysis.parts.quotient, remainder: analysis.parts.remainder }
}

/// And a trial.
pub fn laid_out_trial(trial: Trial) -> sys::Trial {
    let row = |Tally { granted, busy, held, share_spent }| sys::Tally { granted, busy, held, share_spent };
    sys::Trial { answer: laid_out(trial.answer), rows: trial.rows.map(row), finished: trial.finished }
}

pub fn record_of(record: sys::Record) -> Record {
    Record { positions: record.positions, grants: record.grants, counts: record.counts }
}

pub fn lent_record(record: Record) -> sys::Record {
    sys::Record { positions: record.positions, grants: record.grants, counts: record.counts }
}

fn hexadecimal(bytes: &[u8]) -> String {
    bytes.iter().map(|byte| format!("{byte:02X}")).collect()
}

/// A plan to question, for so many tasks. Behind its slice these words stand, which it must not be answered from.
#[derive(Clone, Copy)]
pub struct Question<'a> {
    pub plan: &'a [u32],
    pub behind: &'a [u32],
    pub tasks: usize,
}

/// Everything that one call was made with, to tell of when something differs.
struct Made<'a> {
    call: Call,
    words: &'a [u32],
    beside: String,
    map: Option<&'a [u8]>,
}

impl Checker {
    pub fn new() -> Checker {
        Checker {
            seen: Seen::default(),
            sets: Sets::default(),
            parts: Parts::default(),
            asked: Asked::default(),
            cleanings: Cleanings::default(),
            units: Units::default(),
            shares: Shares::default(),
            trials: Trials::default(),
            input: String::new(),
        }
    }

    /// Tells the whole case and ends the run.
    fn fail(&self, made: &Made, what: String) -> ! {
        println!("DIFFERS: {} ({})", what, self.input);
        println!("call: {}{}", CALLS[made.call as usize], made.beside);
        let words: Vec<String> = made.words.iter().map(|word| format!("{word:08X}")).collect();
        println!("words ({}): {}", words.len(), words.join(" "));
        if let Some(map) = made.map {
            println!("map lent ({} bytes): {}", map.len(), hexadecimal(map));
        }
        std::process::exit(1);
    }

    fn answers(&mut self, made: &Made, library: sys::Answer, reference: Answer) {
        if library != laid_out(reference) {
            self.fail(made, format!("the library answers {:?}, {:?}, the reference {:?}", told(&library), library, reference));
        }
        self.count(made.call, library);
    }

    fn count(&mut self, call: Call, answer: sys::Answer) {
        self.seen.kinds[call as usize][answer.kind as usize] += 1;
        self.seen.refusals[call as usize][answer.refusal as usize] += 1;
    }

    fn alike<T: Copy + PartialEq + Debug>(&self, made: &Made, name: &str, library: &Fenced<T>, reference: &Fenced<T>) {
        if let Some((at, one, other)) = library.difference(reference) {
            let len = library.read().len();
            self.fail(made, format!("afterwards the {name} (of length {len}) has {one:X?} at {at}, and should have {other:X?}"));
        }
    }

    pub fn read(&mut self, random: &mut Random, words: &[u32], worked: &Worked) {
        let made = Made { call: Call::Read, words, beside: String::new(), map: None };
        let set = Fenced::new(random, words.len(), |i| words.get(i).copied().unwrap_or(0x2000_0000));
        let before = set.clone();
        let lent = set.read();
        let library = unsafe { sys::arbiter_read(lent.as_ptr(), lent.len()) };
        self.answers(&made, library, worked.read());
        self.alike(&made, "set", &set, &before);
    }

    pub fn analyse(&mut self, random: &mut Random, words: &[u32], worked: &Worked, map_len: usize, plan_len: usize) {
        let made = Made { call: Call::Analyse, words, beside: format!(", map slice of {map_len}, plan slice of {plan_len}"), map: None };
        let set = Fenced::new(random, words.len(), |i| words.get(i).copied().unwrap_or(0x2000_0000));
        let before = set.clone();
        // What stands in the slices before differs from place to place and from input to input.
        let salt = random.next();
        let mut map = Fenced::new(random, map_len, |i| (salt as u8).wrapping_add((i as u8).wrapping_mul(29)));
        let mut plan = Fenced::new(random, plan_len, |i| (salt >> 16) as u32 ^ (i as u32).wrapping_mul(0x9E37_79B1));
        let (mut other_map, mut other_plan) = (map.clone(), plan.clone());
        let library = unsafe {
            let (set, map, plan) = (set.read(), map.lent(), plan.lent());
            sys::arbiter_analyse(set.as_ptr(), set.len(), map.as_mut_ptr(), map.len(), plan.as_mut_ptr(), plan.len())
        };
        let reference = worked.analyse(other_map.lent(), other_plan.lent());
        self.answers(&made, library.answer, reference.answer);
        if library != laid_out_analysis(reference) {
            self.fail(&made, format!("the library answers {library:?}, the reference {:?}", reference.parts));
        }
        self.alike(&made, "map slice", &map, &other_map);
        self.alike(&made, "plan slice", &plan, &other_plan);
        self.alike(&made, "set", &set, &before);
        self.parts(&made, library, map.read(), worked.map.len());
    }

    /// What must be so of the parts per thousand, by the map that the library wrote.
    fn parts(&mut self, made: &Made, analysis: sys::Analysis, map: &[u8], grid: usize) {
        let (grid, beyond) = map.split_at(grid.min(map.len()));
        let told = per_thousand::Made { analysis, grid, beyond };
        if let Some(fault) = told.fault() {
            self.fail(made, format!("the library answers {analysis:?}, and {fault}"));
        }
        self.parts.count(&told);
    }

    /// The record as it is afterwards comes back, so that a list of bids can go on from it.
    pub fn bid(&mut self, random: &mut Random, words: &[u32], worked: &Worked, map: &[u8], record: Record, task: usize, settings: Settings) -> Record {
        let made = Made { call: Call::Bid, words, beside: format!(" of task {task} with {settings:?} on {record:?}"), map: Some(map) };
        let set = Fenced::new(random, words.len(), |i| words.get(i).copied().unwrap_or(0x2000_0000));
        let lent_map = Fenced::new(random, map.len(), |i| map.get(i).copied().unwrap_or(0));
        let (set_before, map_before) = (set.clone(), lent_map.clone());
        let mut records = self.records(random, record);
        let mut other = records.clone();
        let library = unsafe {
            let (set, map) = (set.read(), lent_map.read());
            sys::arbiter_bid(&mut records.lent()[0], set.as_ptr(), set.len(), map.as_ptr(), map.len(), task, settings.share, settings.window)
        };
        let mut after = record;
        let reference = worked.bid(map, &mut after, task, settings);
        other.lent()[0] = lent_record(after);
        self.answers(&made, library, reference);
        self.alike(&made, "record", &records, &other);
        self.alike(&made, "set", &set, &set_before);
        self.alike(&made, "map", &lent_map, &map_before);
        let after = record_of(records.read()[0]);
        if let Ok(set) = &worked.set {
            let bid = shares::Bid { set, map, before: record, after, task, settings, kind: library.kind, refusal: library.refusal };
            if let Some(fault) = self.shares.count_bid(&bid) {
                self.fail(&made, format!("the library answers {library:?} and leaves {after:?}: {fault}"));
            }
        }
        after
    }

    /// What must be so of the bids on one record.
    pub fn in_service(&self, words: &[u32], is_so: bool, what: impl Fn() -> String) {
        if !is_so {
            self.fail(&Made { call: Call::Bid, words, beside: String::new(), map: None }, what());
        }
    }

    /// What isn't so of the map and the plan of a set, as to units.
    pub fn in_units(&self, words: &[u32], fault: Option<String>) {
        if let Some(what) = fault {
            self.fail(&Made { call: Call::Analyse, words, beside: String::new(), map: None }, what);
        }
    }

    /// What the package for Rust was found to make of these words.
    pub fn package(&self, words: &[u32], found: Result<(), String>) {
        if let Err(what) = found {
            let made = Made { call: Call::Analyse, words, beside: " by the package for Rust".to_string(), map: None };
            self.fail(&made, what);
        }
    }

    pub fn again(&mut self, random: &mut Random, words: &[u32], worked: &Worked, record: Record) -> Record {
        let made = Made { call: Call::Again, words, beside: format!(" on {record:?}"), map: None };
        let set = Fenced::new(random, words.len(), |i| words.get(i).copied().unwrap_or(0x2000_0000));
        let before = set.clone();
        let mut records = self.records(random, record);
        let mut other = records.clone();
        let library = unsafe {
            let set = set.read();
            sys::arbiter_again(&mut records.lent()[0], set.as_ptr(), set.len())
        };
        let mut after = record;
        let reference = worked.again(&mut after);
        other.lent()[0] = lent_record(after);
        self.answers(&made, library, reference);
        self.alike(&made, "record", &records, &other);
        self.alike(&made, "set", &set, &before);
        if let Ok(set) = &worked.set {
            self.shares.count_again(set, &record, library);
        }
        record_of(records.read()[0])
    }

    pub fn route(&mut self, random: &mut Random, words: &[u32], worked: &Worked, map: &[u8], record: Record, route_len: usize) {
        let made = Made { call: Call::Route, words, beside: format!(" from {record:?}, route slice of {route_len}"), map: Some(map) };
        let set = Fenced::new(random, words.len(), |i| words.get(i).copied().unwrap_or(0x2000_0000));
        let lent_map = Fenced::new(random, map.len(), |i| map.get(i).copied().unwrap_or(0));
        let (set_before, map_before) = (set.clone(), lent_map.clone());
        let salt = random.next() as u8;
        let mut route = Fenced::new(random, route_len, |i| salt.wrapping_add((i as u8).wrapping_mul(29)));
        let mut other = route.clone();
        let library = unsafe {
            let (set, map, route) = (set.read(), lent_map.read(), route.lent());
            sys::arbiter_route(lent_record(record), set.as_ptr(), set.len(), map.as_ptr(), map.len(), route.as_mut_ptr(), route.len())
        };
        let reference = worked.route(map, &record, other.lent());
        self.answers(&made, library, reference);
        if let Ok(set) = &worked.set {
            self.shares.count_route(set, &record, library);
        }
        self.alike(&made, "route slice", &route, &other);
        self.alike(&made, "set", &set, &set_before);
        self.alike(&made, "map", &lent_map, &map_before);
    }

    /// One plan asked at these states, and what the library answers.
    pub fn locate(&mut self, random: &mut Random, question: Question, states: &[State]) -> Vec<sys::Answer> {
        let Question { plan, behind, tasks } = question;
        // Beyond the rest, and before the slice, words that a plan might go on with.
        let fenced = Fenced::new(random, plan.len(), |i| plan.iter().chain(behind).nth(i).copied().unwrap_or(0x5000_0000 | i as u32 & 0x0FFF_FFFF));
        let before = fenced.clone();
        let lent = fenced.read();
        let stored = stored_plan::read(plan, tasks);
        let mut answers = Vec::with_capacity(states.len());
        for state in states {
            let library = unsafe { sys::arbiter_locate(sys::State { positions: *state }, lent.as_ptr(), lent.len(), tasks) };
            let reference = stored_plan::locate(&stored, state);
            self.must(question, state, library == laid_out(reference), || format!("the library answers {library:?}, the reference {reference:?}"));
            self.count(Call::Locate, library);
            answers.push(library);
        }
        let unchanged = fenced.difference(&before).is_none();
        self.must(question, &states[0], unchanged, || format!("it, or one of the {} questions at other states, has changed the plan", states.len() - 1));
        answers
    }

    /// What must be so of a question at a state.
    pub fn must(&self, question: Question, state: &State, is_so: bool, what: impl Fn() -> String) {
        if !is_so {
            let beside = format!(" {state:?} for {} tasks", question.tasks);
            self.fail(&Made { call: Call::Locate, words: question.plan, beside, map: None }, what());
        }
    }

    /// The slice as it is afterwards.
    pub fn clean(&mut self, random: &mut Random, words: &[u32], worked: &Worked, clean_len: usize) -> Vec<u32> {
        let made = Made { call: Call::Clean, words, beside: format!(", slice of {clean_len}"), map: None };
        let set = Fenced::new(random, words.len(), |i| words.get(i).copied().unwrap_or(0x2000_0000));
        let before = set.clone();
        let salt = random.next() as u32;
        let mut clean = Fenced::new(random, clean_len, |i| salt ^ (i as u32).wrapping_mul(0x9E37_79B1));
        let mut other = clean.clone();
        let library = unsafe {
            let (set, clean) = (set.read(), clean.lent());
            sys::arbiter_clean(set.as_ptr(), set.len(), clean.as_mut_ptr(), clean.len())
        };
        let reference = worked.clean(other.lent());
        self.answers(&made, library, reference);
        self.alike(&made, "slice for the cleaned set", &clean, &other);
        self.alike(&made, "set", &set, &before);
        clean.read().to_vec()
    }

    pub fn trial(&mut self, random: &mut Random, words: &[u32], worked: &Worked, lent: &Lent) {
        let Lent { map, order, rounds, settings } = lent;
        let made = Made { call: Call::Trial, words, beside: format!(" of {rounds} rounds of {order:?} with {settings:?}"), map: Some(map) };
        let set = Fenced::new(random, words.len(), |i| words.get(i).copied().unwrap_or(0x2000_0000));
        let lent_map = Fenced::new(random, map.len(), |i| map.get(i).copied().unwrap_or(0));
        // Beyond the order stand tasks that it might go on with.
        let lent_order = Fenced::new(random, order.len(), |i| order.get(i).copied().unwrap_or((i & 1) as u8));
        let before = (set.clone(), lent_map.clone(), lent_order.clone());
        let library = unsafe {
            let (set, map, order) = (set.read(), lent_map.read(), lent_order.read());
            let Settings { share, window } = *settings;
            sys::arbiter_trial(set.as_ptr(), set.len(), map.as_ptr(), map.len(), order.as_ptr(), order.len(), *rounds, share, window)
        };
        let reference = worked.trial(map, order, *rounds, *settings);
        self.answers(&made, library.answer, reference.answer);
        if library != laid_out_trial(reference) {
            self.fail(&made, format!("the library answers {library:?}, the reference {reference:?}"));
        }
        self.alike(&made, "set", &set, &before.0);
        self.alike(&made, "map", &lent_map, &before.1);
        self.alike(&made, "order", &lent_order, &before.2);
        if let Ok(set) = &worked.set {
            let tried = trials::Made { set, worked, lent, trial: library };
            if let Some(fault) = self.trials.count(&tried) {
                self.fail(&made, format!("the library answers {library:?}: {fault}"));
            }
        }
    }

    /// What must be so of a set and the one that it is cleaned to.
    pub fn cleaned(&self, words: &[u32], is_so: bool, what: impl Fn() -> String) {
        if !is_so {
            self.fail(&Made { call: Call::Clean, words, beside: String::new(), map: None }, what());
        }
    }

    /// A record between fences of other records.
    fn records(&self, random: &mut Random, record: Record) -> Fenced<sys::Record> {
        let fence = sys::Record { positions: [0xA5; 8], grants: 0x5A5A_5A5A, counts: [0xC3; 8] };
        Fenced::new(random, 1, |i| if i == 0 { lent_record(record) } else { fence })
    }
}
