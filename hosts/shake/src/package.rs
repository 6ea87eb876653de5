//! What the package for Rust makes of an accepted set, held to the reference: the set's parts and states, the plan's boxes, an analysis that finds its own room, a
//! short service, and trials; and what it makes of any list that is to be cleaned.

use crate::cases;
use crate::random::Random;
use crate::reference::{held_after, Action, Answer, Refusal, Set, State, Worked};
use crate::stored_plan;
use crate::trial_cases::{self, Lent};
use arbiter::{Analysed, BidAnswer, BoxKind, Location, PerThousand, Plan, Record, Refused, Service, Settings, Tally, Trial};
use std::fmt::Debug;

const STATES: usize = 3; // looked at of each set
const BIDS: usize = 8;

/// All of it for one set; the first difference, if there is one.
pub fn check(random: &mut Random, words: &[u32], worked: &Worked, set: &Set) -> Result<(), String> {
    let analysed = Analysed::new(words).map_err(|refused| refused.to_string())?;
    same("map", analysed.map(), &worked.map)?;
    same("plan", analysed.plan().words(), &worked.plan)?;
    same("parts per thousand", analysed.per_thousand(), PerThousand { quotient: worked.parts.quotient, remainder: worked.parts.remainder })?;
    same("plan put together from its boxes and dead states", words_of_plan(analysed.plan()), worked.plan.clone())?;
    parts(analysed.set(), set)?;
    for _ in 0..STATES {
        let rank = random.below(worked.map.len());
        state(analysed.set(), set, rank)?;
    }
    same("state beyond the last", analysed.set().state_of_rank(worked.map.len()), None)?;
    for _ in 0..STATES {
        let settings = cases::settings(random);
        location(analysed.plan(), &cases::record(random, set, &worked.map, settings).positions, set.tasks.len())?;
    }
    service(random, analysed, worked, set)
}

/// Trials of one set: on any map by the plain call, and on its own; those that are accepted are also held to the package's own bids.
pub fn check_trials(random: &mut Random, words: &[u32], worked: &Worked, set: &Set) -> Result<(), String> {
    let analysed = Analysed::new(words).map_err(|refused| refused.to_string())?;
    let lent = trial_cases::any(random, worked, set);
    let Lent { map, order, rounds, settings } = &lent;
    let package_settings = Settings::new(settings.share, settings.window);
    same("trial on any map", arbiter::plain::trial(words, map, order, *rounds, package_settings), expected_trial(worked, map, &lent))?;
    let trial = analysed.trial(order, *rounds, package_settings);
    same("trial", trial, expected_trial(worked, &worked.map, &lent))?;
    match trial {
        Err(_) => Ok(()),
        Ok(trial) => same("trial's bids one by one", bid_by_bid(analysed, order, trial.made, package_settings)?, trial),
    }
}

/// What the reference answers to a trial on this map.
fn expected_trial(worked: &Worked, map: &[u8], lent: &Lent) -> Result<Trial, Refused> {
    let trial = worked.trial(map, &lent.order, lent.rounds, lent.settings);
    match trial.answer {
        Answer::Tried(made) => {
            let rows = trial.rows.map(|row| Tally { granted: row.granted, busy: row.busy, held: row.held, share_spent: row.share_spent });
            Ok(Trial { made, rows, finished: trial.finished })
        }
        Answer::Refused(refusal) => Err(Refused { refusal: (refusal.number as u8).try_into().unwrap(), place: refusal.place as usize }),
        answer => panic!("a trial is answered {answer:?}"),
    }
}

/// So many bids down the order again and again, in a service, and their answers counted.
fn bid_by_bid(analysed: Analysed, order: &[u8], bids: u64, settings: Settings) -> Result<Trial, String> {
    let mut service = Service::start(analysed);
    let mut trial = Trial { made: bids, rows: [Tally::default(); 8], finished: 0 };
    for &task in order.iter().cycle().take(bids as usize) {
        let row = &mut trial.rows[task as usize];
        match service.bid(task as usize, settings).map_err(|refused| refused.to_string())? {
            BidAnswer::Granted => row.granted += 1,
            BidAnswer::Busy { .. } => row.busy += 1,
            BidAnswer::Held { .. } => row.held += 1,
            BidAnswer::ShareSpent => row.share_spent += 1,
            BidAnswer::Finished => trial.finished += 1,
        }
    }
    Ok(trial)
}

/// The same for a list, good or bad, that is to be cleaned.
pub fn check_cleaning(random: &mut Random, words: &[u32], worked: &Worked) -> Result<(), String> {
    let refusal = |refused: Refused| number_and_place(refused);
    same("cleaned", arbiter::cleaned(words).map_err(refusal), worked.former.as_ref().map(|_| worked.clean.clone()).map_err(|refusal| *refusal))?;
    let (mut slice, mut other) = (vec![0; cases::length(random, worked.clean.len())], vec![0; words.len()]);
    let wanted = match worked.clean(&mut slice.clone()) {
        Answer::Refused(refusal) => Err(refusal),
        _ => Ok(&worked.clean[..]),
    };
    same("set that is cleaned into a slice", arbiter::Set::clean(words, &mut slice).map(arbiter::Set::words).map_err(refusal), wanted)?;
    if let (Ok(set), Ok(package)) = (&worked.former, arbiter::Set::clean(words, &mut other)) {
        same("number of states of a cleaned set", package.states(), set.grid())?;
        let kept: Vec<usize> = (0..=set.capacities.len()).filter(|&device| arbiter::is_claimed(words, device)).collect();
        same("devices that are kept", kept, set.claimed())?;
    }
    Ok(())
}

fn same<T: PartialEq + Debug>(what: &str, package: T, reference: T) -> Result<(), String> {
    if package == reference {
        return Ok(());
    }
    Err(format!("{what}: the package has {package:X?}, the reference {reference:X?}"))
}

fn words_of_plan(plan: Plan) -> Vec<u32> {
    let mut words = Vec::new();
    for plan_box in plan.boxes() {
        words.push(match plan_box.kind {
            BoxKind::Forbidden { device } => 0x6000_0000 | device as u32,
            BoxKind::Unsafe => 0x7000_0000,
        });
        for (task, side) in plan_box.sides().enumerate() {
            words.push(0x8000_0000 | (task as u32) << 16 | u32::from(*side.start()) << 8 | u32::from(*side.end()));
        }
    }
    words.extend(plan.dead_states().map(|rank| 0x9000_0000 | rank as u32));
    words.extend(plan.unreached_states().map(|rank| 0xA000_0000 | rank as u32));
    words.push(0x5000_0000 | words.len() as u32);
    words
}

fn told(action: arbiter::Action) -> Action {
    match action {
        arbiter::Action::Claim { device, units } => Action::Claim { device, units },
        arbiter::Action::Release { device } => Action::Release { device },
    }
}

fn parts(package: arbiter::Set, set: &Set) -> Result<(), String> {
    same("number of tasks", package.tasks(), set.tasks.len())?;
    same("number of devices", package.devices(), set.capacities.len())?;
    same("capacities", package.capacities().collect(), set.capacities.clone())?;
    for (task, actions) in set.tasks.iter().enumerate() {
        same("actions", package.actions(task).map(told).collect(), actions.clone())?;
    }
    same("number of states", package.states(), set.grid())
}

fn state(package: arbiter::Set, set: &Set, rank: usize) -> Result<(), String> {
    let state = package.state_of_rank(rank).ok_or(format!("no state of rank {rank}"))?;
    let positions: State = state.positions();
    same("rank", (state.rank(), set.rank(&positions)), (rank, rank))?;
    same("state at its positions", package.state(positions), Some(state))?;
    let mut holders = vec![Vec::new(); set.capacities.len()];
    let mut in_use = vec![0; set.capacities.len()];
    for (task, actions) in set.tasks.iter().enumerate() {
        let done = positions[task] as usize;
        same("last action", state.last_action(task).map(told), actions[..done].last().copied())?;
        same("next action", state.next_action(task).map(told), actions.get(done).copied())?;
        for held in held_after(&actions[..done]) {
            holders[held.device].push(task);
            in_use[held.device] += held.units;
            same("units that a task holds", state.units(task, held.device), held.units)?;
        }
    }
    for (device, holders) in holders.into_iter().enumerate() {
        let others = (0..set.tasks.len()).filter(|task| !holders.contains(task));
        same("units that other tasks hold", others.map(|task| state.units(task, device)).sum(), 0)?;
        same("holders", state.holders(device).collect(), holders)?;
    }
    same("units in use", (0..set.capacities.len()).map(|device| state.units_in_use(device)).collect(), in_use)
}

/// Where a state lies, and that the box which is named holds it.
fn location(plan: Plan, positions: &State, tasks: usize) -> Result<(), String> {
    let found = plan.locate(*positions, tasks).map_err(|refused| refused.to_string())?;
    let told = match found {
        Location::Forbidden { index } => Answer::InForbiddenBox(index as u64),
        Location::Unsafe { index } => Answer::InUnsafeBox(index as u64),
        Location::Neither => Answer::InNoBox,
    };
    same("location", told, stored_plan::locate(&stored_plan::read(plan.words(), tasks), positions))?;
    let plan_box = found.index().and_then(|index| plan.box_at(index));
    let holds = plan_box.map(|plan_box| plan_box.sides().zip(positions).all(|(side, position)| side.contains(position)));
    same("whether the box that is named holds the state", holds, found.index().map(|_| true))
}

/// From any record, if it is open, by bids of any tasks with any settings.
fn service(random: &mut Random, analysed: Analysed, worked: &Worked, set: &Set) -> Result<(), String> {
    let mut settings = cases::settings(random);
    let mut record = cases::record(random, set, &worked.map, settings);
    let fits = record.positions.iter().zip(set.end()).all(|(&position, last)| position <= last);
    same("whether there is such a state", analysed.set().state(record.positions).is_some(), fits)?;
    let open = worked.route(&worked.map, &record, &mut [0; 4096]);
    let mut service = match (Service::resume(analysed, Record::new(record.positions, record.grants, record.counts)), open) {
        (Ok(service), Answer::Routed(_)) => service,
        (Err(refused), Answer::Refused(refusal)) => return same("refused record", number_and_place(refused), refusal),
        (resumed, answer) => return Err(format!("resume gives {:?}, the reference's route {answer:?}", resumed.map(|_| ()))),
    };
    for _ in 0..BIDS {
        let task = cases::task(random, set.tasks.len());
        same("bid", answer_of(service.bid(task, Settings::new(settings.share, settings.window))), worked.bid(&worked.map, &mut record, task, settings))?;
        let again = service.again().map_or_else(|refused| Answer::Refused(number_and_place(refused)), |()| Answer::Restarted);
        same("again", again, worked.again(&mut record))?;
        same("record", service.record(), &Record::new(record.positions, record.grants, record.counts))?;
        same("grants of the window", service.record().window_grants(), record.window_grants())?;
        same("state", service.state().positions(), record.positions)?;
        if random.one_in(4) {
            settings = cases::settings(random);
        }
    }
    Ok(())
}

fn number_and_place(refused: Refused) -> Refusal {
    Refusal { number: refused.refusal.number().into(), place: refused.place as u64 }
}

fn answer_of(answer: Result<BidAnswer, Refused>) -> Answer {
    match answer {
        Ok(BidAnswer::Granted) => Answer::Granted,
        Ok(BidAnswer::Finished) => Answer::Finished,
        Ok(BidAnswer::Busy { device }) => Answer::Busy(device as u64),
        Ok(BidAnswer::Held { rank }) => Answer::Held(rank as u64),
        Ok(BidAnswer::ShareSpent) => Answer::ShareSpent,
        Err(refused) => Answer::Refused(number_and_place(refused)),
    }
}
