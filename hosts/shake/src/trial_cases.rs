//! What trials are made with: maps, orders of tasks that can stand and that can't, rounds and settings.

use crate::cases;
use crate::random::Random;
use crate::reference::{Record, Set, Settings, Worked, LONGEST_ORDER};

/// All that a trial is lent beside the set, and its numbers.
pub struct Lent {
    pub map: Vec<u8>,
    pub order: Vec<u8>,
    pub rounds: u16,
    pub settings: Settings,
}

/// How many bids a trial may come to: mostly so few, and at most so many, for the time that they take. `long` has many more.
const FEW_BIDS: usize = 200;
const MOST_BIDS: usize = 3_000;

/// A trial of an accepted set.
pub fn any(random: &mut Random, worked: &Worked, set: &Set) -> Lent {
    let map = if random.one_in(2) { worked.map.clone() } else { cases::lent_map(random, &worked.map) };
    let mut order = order(random, worked, set);
    let comes_home = map == worked.map && (0..set.tasks.len()).all(|task| order.contains(&(task as u8)));
    let rounds = rounds(random, set, order.len(), comes_home);
    if random.one_in(4) {
        spoil(random, &mut order, set.tasks.len());
    }
    Lent { map, order, rounds, settings: cases::settings(random) }
}

/// A trial of a list that is no set: anything may stand beside it.
pub fn of_no_set(random: &mut Random) -> Lent {
    let map = (0..random.below(50)).map(|_| random.below(5) as u8).collect();
    let order = (0..random.below(10)).map(|_| random.below(9) as u8).collect();
    let rounds = random.pick(&[0, 1, 2, 65_535]);
    Lent { map, order, rounds, settings: cases::settings(random) }
}

/// An order that can stand: the tasks in turn, in any order, one of them more often than the others or alone, the steps home with more behind them, or any tasks.
fn order(random: &mut Random, worked: &Worked, set: &Set) -> Vec<u8> {
    let tasks = set.tasks.len();
    let any = |random: &mut Random, length: usize| -> Vec<u8> { (0..length).map(|_| random.below(tasks) as u8).collect() };
    let mut order: Vec<u8> = (0..tasks as u8).collect();
    match random.below(10) {
        0 | 1 => {}
        2 => random.shuffle(&mut order),
        3 => {
            let task = random.below(tasks) as u8;
            let times = random.between(1, 5);
            order.splice(0..0, vec![task; times]);
        }
        4 => order = vec![random.below(tasks) as u8; random.between(1, 5)],
        5 | 6 => {
            order = steps_home(worked);
            let length = random.below(4);
            order.extend(any(random, length));
        }
        7 => {
            let length = random.between(LONGEST_ORDER - 3, LONGEST_ORDER);
            order = any(random, length);
        }
        _ => {
            let length = random.between(1, 12);
            order = any(random, length);
        }
    }
    order.truncate(LONGEST_ORDER);
    // Without actions there are no steps home.
    if order.is_empty() {
        order.push(0);
    }
    order
}

/// The route from the start on the set's own map.
fn steps_home(worked: &Worked) -> Vec<u8> {
    let mut steps = [255; 4096];
    let _ = worked.route(&worked.map, &Record::FRESH, &mut steps);
    steps.iter().copied().take_while(|&task| task != 255).collect()
}

/// Makes of an order that can stand one that can't: empty, with an absent task somewhere, too long, or both.
fn spoil(random: &mut Random, order: &mut Vec<u8>, tasks: usize) {
    let absent = absent_task(random, tasks);
    let longer = |random: &mut Random| match random.below(20) {
        0 => random.pick(&[65_535, 65_536, 65_537, 65_536 + LONGEST_ORDER]),
        1..=9 => LONGEST_ORDER + 1,
        _ => random.between(LONGEST_ORDER + 2, 2 * LONGEST_ORDER + 4),
    };
    match random.below(9) {
        0 => order.clear(),
        1 => order[0] = absent,
        2 => order.push(absent),
        3 => *order.last_mut().unwrap() = absent,
        4 => {
            // One, or several, of which the first is told.
            for _ in 0..random.between(1, 3) {
                let place = random.below(order.len());
                order[place] = absent;
            }
        }
        5 => {
            order.resize(LONGEST_ORDER, 0);
            order[LONGEST_ORDER - 1] = absent;
        }
        6 => order.resize(longer(random), 0),
        7 => {
            // The first place that no order has, or one behind it, names an absent task too.
            order.resize(longer(random), 0);
            let place = random.between(LONGEST_ORDER, order.len() - 1);
            order[place] = absent;
        }
        _ => {
            order.resize(longer(random), 0);
            let place = random.below(LONGEST_ORDER);
            order[place] = absent;
        }
    }
}

/// A number that no task of the set has: the next one, one that another set may have, or one far off.
fn absent_task(random: &mut Random, tasks: usize) -> u8 {
    let small = random.below(8) as u8;
    let absent: Vec<u8> = [tasks as u8, 7, 8, 8 + small, 16 + small, 64, 128 + small, 254, 255].into_iter().filter(|&task| task as usize >= tasks).collect();
    random.pick(&absent)
}

/// Any number of rounds of a trial that comes home by itself and soon enough; of others no more than there is time for.
fn rounds(random: &mut Random, set: &Set, length: usize, comes_home: bool) -> u16 {
    if comes_home && set.actions() * length <= MOST_BIDS && random.one_in(2) {
        return random.pick(&[set.actions() as u16, set.actions() as u16 + 1, 255, 256, 257, 32_768, 65_534, 65_535]);
    }
    let few = FEW_BIDS / length + 1;
    match random.below(16) {
        0 | 1 => 0,
        2..=5 => 1,
        6 if 300 * length <= MOST_BIDS => random.between(255, 300) as u16,
        7 => few as u16,
        _ => random.between(1, few).min(50) as u16,
    }
}

/// Very long trials, each with what it is for: three tasks that claim and release one device, and an order as long as there is.
pub fn long(rounds: u16) -> [(&'static str, Vec<u32>, Lent); 2] {
    let words = cases::words_of(&[3], &vec![vec![0x3000_0000, 0x4000_0000]; 3]);
    // Of 27 states those are forbidden in which task 0 has made a step, and unsafe those in which task 1 has, but not task 0. So both wait for ever, and task 2 is
    // finished after two bids.
    let waiting = (0..27).map(|rank| if rank >= 9 { 1 } else { 2 * u8::from(rank >= 3) }).collect();
    let in_turn = (0..LONGEST_ORDER).map(|place| (place % 3) as u8).collect();
    let busy = Lent { map: waiting, order: in_turn, rounds, settings: Settings { share: 1, window: 1 } };
    // Task 1 has its share of one, and then waits for the others, which don't bid.
    let spent = Lent { map: vec![0; 27], order: vec![1; LONGEST_ORDER], rounds, settings: Settings { share: 1, window: 255 } };
    [("busy, held and finished", words.clone(), busy), ("share spent", words, spent)]
}
