//! Makers of inputs: lists of words, good and bad, and what is lent beside them: maps, records, task numbers and the lengths of slices.

use crate::random::Random;
use crate::reference::{Record, Set, Settings, State, TASKS};

fn device(capacity: usize) -> u32 {
    0x1000_0000 | capacity as u32
}
const TASK: u32 = 0x2000_0000;
fn claim(device: usize) -> u32 {
    claim_of(1, device)
}
/// A claim of so many units, 1 to 256.
fn claim_of(units: usize, device: usize) -> u32 {
    0x3000_0000 | (units as u32 - 1) << 16 | device as u32
}
fn release(device: usize) -> u32 {
    0x4000_0000 | device as u32
}
fn end(index: usize) -> u32 {
    0x5000_0000 | index as u32
}

/// The words of a set, each task a list of claims and releases.
pub fn words_of(capacities: &[usize], tasks: &[Vec<u32>]) -> Vec<u32> {
    let mut words: Vec<u32> = capacities.iter().map(|&capacity| device(capacity)).collect();
    for task in tasks {
        words.push(TASK);
        words.extend(task);
    }
    words.push(end(words.len()));
    words
}

/// The words of a set in which each device is claimed: the others are left out, and their numbers closed up.
fn set_of(capacities: &[usize], tasks: &[Vec<u32>]) -> Vec<u32> {
    let mut number = [0; 16];
    let mut kept = Vec::new();
    for (device, &capacity) in capacities.iter().enumerate() {
        number[device] = kept.len() as u32;
        if tasks.iter().any(|task| task.contains(&claim(device))) {
            kept.push(capacity);
        }
    }
    let renamed = |task: &Vec<u32>| task.iter().map(|word| word & 0xF000_0000 | number[(word & 15) as usize]).collect();
    words_of(&kept, &tasks.iter().map(renamed).collect::<Vec<Vec<u32>>>())
}

pub fn example_a() -> Vec<u32> {
    words_of(&[1, 1], &[vec![claim(0), claim(1), release(1), release(0)], vec![claim(1), claim(0), release(0), release(1)]])
}

/// Two tasks that cross 40 times: one turn has 320 grants, more than any window.
pub fn many_crossings() -> Vec<u32> {
    let there = [claim(0), claim(1), release(1), release(0)].repeat(40);
    let back = [claim(1), claim(0), release(0), release(1)].repeat(40);
    words_of(&[1, 1], &[there, back])
}

/// How many kinds of refused lists `faulty` is asked for: the refusals 1 to 12, and 28.
const FAULTS: u64 = 13;

const MOST_DEVICES: usize = 16;
const MOST_TASKS: usize = 8;
const MOST_CAPACITY: usize = 8;
const MOST_UNITS: usize = 256; // that a claim can ask for, though no device has them

/// The list of words of one input. Kinds take turns, so that a short run has all of them.
pub fn words(random: &mut Random, input: u64) -> Vec<u32> {
    let round = input / 22;
    match input % 22 {
        0..=3 => sized(random, &[12, 50, 200, 200, 600, 2000]),
        4 => few_devices(random),
        5 => {
            if round % 8 == 5 {
                one_crossing(random, round / 8)
            } else {
                crossing(random)
            }
        }
        6 => pocket(random),
        7 => family(random, false),
        8..=10 => faulty(random, 1 + (round % FAULTS) as usize),
        11 | 12 => damaged(random),
        13 => noise(random),
        14 => {
            if round % 24 == 3 {
                large(random)
            } else {
                sized(random, &[9, 30, 100, 300])
            }
        }
        15 => limits(random, round),
        16 | 17 => unclaimed(random, round),
        18..=20 => in_units(random, round),
        _ => damaged_units(random, round),
    }
}

// --- Good sets ---

/// Random even action counts whose grid is at most this.
fn lengths(random: &mut Random, tasks: usize, most: usize) -> Vec<usize> {
    let mut lengths = vec![0; tasks];
    let mut order: Vec<usize> = (0..tasks).collect();
    random.shuffle(&mut order);
    let mut grid = 1;
    for task in order {
        let room = (most / grid - 1).min(254) / 2;
        if room > 0 && !random.one_in(8) {
            // Mostly not the whole room, which would leave nothing to the other tasks.
            let length = 2 * if random.one_in(4) { random.between(0, room) } else { random.between(1, room.min(5)) };
            lengths[task] = length;
            grid *= length + 1;
        }
    }
    lengths
}

/// A task of so many actions, an even number, over some of the devices: claims and releases as they come, all released at the close.
fn actions(random: &mut Random, length: usize, devices: &[usize]) -> Vec<u32> {
    let mut held: Vec<usize> = Vec::new();
    let mut actions = Vec::with_capacity(length);
    let eager = random.between(2, 5);
    while actions.len() < length && !devices.is_empty() {
        let left = length - actions.len();
        let can_claim = held.len() + 2 <= left && held.len() < devices.len();
        if held.is_empty() || (can_claim && !random.one_in(eager)) {
            let free: Vec<usize> = devices.iter().copied().filter(|device| !held.contains(device)).collect();
            let device = random.pick(&free);
            held.push(device);
            actions.push(claim(device));
        } else {
            let device = held.remove(random.below(held.len()));
            actions.push(release(device));
        }
    }
    actions
}

fn capacities(random: &mut Random, devices: usize) -> Vec<usize> {
    let tight = random.one_in(2);
    (0..devices).map(|_| if tight { random.pick(&[1, 1, 1, 1, 2]) } else { random.pick(&[1, 1, 2, 2, 3, 4, 5, 6, 7, 8]) }).collect()
}

/// Any set with these action counts: idle tasks and several holds of one device come of themselves.
fn any_set(random: &mut Random, lengths: &[usize]) -> Vec<u32> {
    let mut devices = random.pick(&[0, 1, 1, 2, 2, 3, 3, 4, 5, 8, 16]);
    if lengths.iter().any(|&length| length > 0) {
        devices = devices.max(1);
    }
    let capacities = capacities(random, devices);
    let all: Vec<usize> = (0..devices).collect();
    let tasks: Vec<Vec<u32>> = lengths.iter().map(|&length| actions(random, length, &all)).collect();
    set_of(&capacities, &tasks)
}

fn sized(random: &mut Random, grids: &[usize]) -> Vec<u32> {
    let tasks = random.between(1, 8);
    let most = random.pick(grids);
    let lengths = lengths(random, tasks, most);
    any_set(random, &lengths)
}

/// Many holds of one or two devices, at every capacity: long lists of forbidden boxes.
fn few_devices(random: &mut Random) -> Vec<u32> {
    let tasks = random.between(2, 8);
    let lengths = lengths(random, tasks, 900);
    let devices = random.between(1, 2);
    let capacities: Vec<usize> = (0..devices).map(|_| random.between(1, tasks)).collect();
    let all: Vec<usize> = (0..devices).collect();
    let tasks: Vec<Vec<u32>> = lengths.iter().map(|&length| actions(random, length, &all)).collect();
    set_of(&capacities, &tasks)
}

/// Biased to deadlock: each task claims some devices in an order of its own before it releases any of them.
fn crossing(random: &mut Random) -> Vec<u32> {
    let tasks = random.between(2, 5);
    let devices = random.between(2, 4);
    let mut capacities = vec![1; devices];
    if tasks > 2 && random.one_in(3) {
        capacities[0] = 2;
    }
    let mut lists = Vec::new();
    let mut grid = 1;
    for _ in 0..tasks {
        let mut list = Vec::new();
        for _ in 0..random.pick(&[1, 1, 1, 2]) {
            let mut order: Vec<usize> = (0..devices).collect();
            random.shuffle(&mut order);
            order.truncate(random.between(1, devices.min(3)));
            list.extend(order.iter().map(|&device| claim(device)));
            random.shuffle(&mut order);
            list.extend(order.iter().map(|&device| release(device)));
        }
        if grid * (list.len() + 1) > 1500 {
            list.clear();
        }
        grid *= list.len() + 1;
        lists.push(list);
    }
    set_of(&capacities, &lists)
}

/// Two tasks that cross once, each with turns of a device of its own before its two claims and between them. By turns: long before them, so that under one state in a
/// thousand is unsafe; long between them, so that nine in ten are; or any.
fn one_crossing(random: &mut Random, turn: u64) -> Vec<u32> {
    let tasks = [(0, 1, 2), (1, 0, 3)].map(|(first, second, own)| {
        let (before, between) = match turn % 3 {
            0 => (random.between(15, 25), 0),
            1 => (0, random.between(30, 40)),
            _ => (random.below(12), random.below(12)),
        };
        let turns = |times: usize| [claim(own), release(own)].repeat(times);
        [turns(before), vec![claim(first)], turns(between), vec![claim(second), release(second), release(first)]].concat()
    });
    set_of(&[1; 4], &tasks)
}

/// The tasks of two sets of three devices. The first has a dead state that is reached and one that isn't, the second one that isn't and no other.
fn pockets() -> [[Vec<u32>; 2]; 2] {
    [
        [
            vec![claim(1), claim(0), claim(2), release(1), claim(1), release(0), release(1), release(2)],
            vec![claim(1), claim(0), release(0), claim(2), release(2), release(1)],
        ],
        [
            vec![claim(2), claim(1), release(2), claim(0), release(1), release(0)],
            vec![claim(2), claim(1), release(1), claim(0), claim(1), release(2), release(1), release(0)],
        ],
    ]
}

/// Biased to dead states that aren't reached, which are rare: near one of the known pockets. Actions next to each other change places, others come before, between or
/// behind them, the devices have other numbers, and more tasks, idle or not, stand beside.
fn pocket(random: &mut Random) -> Vec<u32> {
    const DEVICES: usize = 4;
    let mut numbers: Vec<usize> = (0..DEVICES).collect();
    random.shuffle(&mut numbers);
    let mut tasks = pockets()[random.below(2)].to_vec();
    for task in &mut tasks {
        for _ in 0..random.pick(&[0, 0, 0, 1, 2]) {
            let at = random.between(1, task.len() - 1);
            if task[at - 1] & 15 != task[at] & 15 {
                task.swap(at - 1, at);
            }
        }
        // The pocket doesn't use the last device.
        let (at, turns) = (random.between(0, task.len()), random.pick(&[0, 0, 1, 2]));
        task.splice(at..at, [claim(DEVICES - 1), release(DEVICES - 1)].repeat(turns));
        for word in task.iter_mut() {
            *word = *word & 0xF000_0000 | numbers[(*word & 15) as usize] as u32;
        }
    }
    random.shuffle(&mut tasks);
    if random.one_in(3) {
        let all: Vec<usize> = (0..DEVICES).collect();
        let length = random.pick(&[2, 2, 4]);
        let other = actions(random, length, &all);
        tasks.insert(random.below(3), other);
    }
    for _ in 0..random.pick(&[0, 0, 0, 1, 2]) {
        tasks.insert(random.below(tasks.len() + 1), Vec::new());
    }
    let mut capacities = vec![1; DEVICES];
    if random.one_in(8) {
        capacities[random.below(DEVICES)] = 2;
    }
    set_of(&capacities, &tasks)
}

/// Known families at random sizes; the largest grids there are if `whole`.
fn family(random: &mut Random, whole: bool) -> Vec<u32> {
    let repeat = |times: usize, actions: &[u32]| -> Vec<u32> { (0..times).flat_map(|_| actions.to_vec()).collect() };
    let (capacities, mut tasks) = match random.below(6) {
        0 => {
            // A ring of philosophers.
            let n = if whole { 6 } else { random.between(2, 4) };
            let tasks = (0..n).map(|i| vec![claim(i), claim((i + 1) % n), release(i), release((i + 1) % n)]).collect();
            (vec![1; n], tasks)
        }
        1 => {
            // Two tasks that cross again and again.
            let n = if whole { random.between(55, 63) } else { random.between(1, 6) };
            let there = repeat(n, &[claim(0), claim(1), release(1), release(0)]);
            let back = repeat(n, &[claim(1), claim(0), release(0), release(1)]);
            (vec![1, 1], vec![there, back])
        }
        2 => {
            // One device claimed and released again and again.
            let n = if whole { random.between(110, 127) } else { random.between(1, 10) };
            let one = repeat(n, &[claim(0), release(0)]);
            (vec![random.between(1, 2)], vec![one.clone(), one])
        }
        3 => {
            // One great unsafe box.
            let n = if whole { random.between(110, 125) } else { random.between(1, 8) };
            let task = |own: usize, other: usize, filler: usize| -> Vec<u32> {
                let mut task = vec![claim(own)];
                task.extend(repeat(n, &[claim(filler), release(filler)]));
                task.extend([claim(other), release(other), release(own)]);
                task
            };
            (vec![1; 4], vec![task(0, 1, 2), task(1, 0, 3)])
        }
        4 => {
            // For every turn of one task and of the other a dead state that isn't reached, alone or with one that is.
            let [one, other] = &pockets()[random.below(2)];
            let turns = |random: &mut Random, task: &[u32]| {
                let most = 254 / task.len();
                repeat(if whole { random.between(most - 4, most) } else { random.between(1, 4) }, task)
            };
            (vec![1; 3], vec![turns(random, one), turns(random, other)])
        }
        _ => {
            // Fine tiles: hand over hand through two devices, then the other task's two before the last is released.
            let n = if whole { random.between(100, 125) } else { random.between(2, 9) };
            let task = |first: usize, second: usize, others: [usize; 2]| -> Vec<u32> {
                let mut task = vec![claim(first)];
                let (mut here, mut there) = (first, second);
                for _ in 1..n {
                    task.extend([claim(there), release(here)]);
                    std::mem::swap(&mut here, &mut there);
                }
                task.extend([claim(others[0]), claim(others[1]), release(others[0]), release(others[1]), release(here)]);
                task
            };
            (vec![1; 4], vec![task(0, 1, [3, 2]), task(2, 3, [0, 1])])
        }
    };
    // Idle tasks between the others.
    if random.one_in(2) {
        for _ in 0..random.below(9 - tasks.len()) {
            tasks.insert(random.below(tasks.len() + 1), Vec::new());
        }
    }
    set_of(&capacities, &tasks)
}

/// Up to 15 devices, half of the time as many, and every one claimed once: one more device has any number from 0 to 15, and is the only one without a claim.
fn many_devices(random: &mut Random) -> Vec<u32> {
    let devices = if random.one_in(2) { 15 } else { random.between(1, 15) };
    let mut order: Vec<usize> = (0..devices).collect();
    random.shuffle(&mut order);
    let mut tasks = vec![Vec::new(); random.between(1, 3)];
    for device in order {
        let task = random.below(tasks.len());
        tasks[task].extend([claim(device), release(device)]);
    }
    set_of(&capacities(random, devices), &tasks)
}

/// Grids next to the largest.
fn large(random: &mut Random) -> Vec<u32> {
    match random.below(6) {
        0 => any_set(random, &[254, 254]),
        1 => {
            // 13 times 71 times 71 is 65,533, the largest grid there is.
            let mut lengths = [12, 70, 70];
            random.shuffle(&mut lengths);
            any_set(random, &lengths)
        }
        2 | 3 => family(random, true),
        _ => {
            let tasks = random.between(3, 8);
            let lengths = lengths(random, tasks, 65536);
            any_set(random, &lengths)
        }
    }
}

/// Next to the limits on words, devices, tasks, actions and the grid; some of them over.
fn limits(random: &mut Random, round: u64) -> Vec<u32> {
    let all: Vec<usize> = (0..MOST_DEVICES).collect();
    match round % 12 {
        0 => {
            // All 16 devices, of which two tasks claim half each, and all eight tasks: up to 7,225 states.
            let mut order = all.clone();
            random.shuffle(&mut order);
            let (some, others) = order.split_at(MOST_DEVICES / 2);
            let mut tasks: Vec<Vec<u32>> =
                [some, others].iter().map(|half| half.iter().flat_map(|&device| [claim(device), release(device)]).collect()).collect();
            for most in [0, 0, 0, 0, 2, 2] {
                let length = 2 * random.between(0, most);
                tasks.push(actions(random, length, &all));
            }
            random.shuffle(&mut tasks);
            let capacities: Vec<usize> = (0..MOST_DEVICES).map(|_| random.pick(&[1, 8])).collect();
            set_of(&capacities, &tasks)
        }
        1 => {
            // One task of 254 actions among idle ones.
            let devices = random.between(1, 16);
            let mut tasks = vec![Vec::new(); random.between(0, 7)];
            tasks.insert(random.below(tasks.len() + 1), actions(random, 254, &all[..devices]));
            set_of(&vec![1; devices], &tasks)
        }
        2 => {
            // 65,549 states, the smallest grid that is refused.
            let mut lengths = [10, 58, 100];
            random.shuffle(&mut lengths);
            any_set(random, &lengths)
        }
        3 => {
            // The longest list without a faulty word: 2,057 words, or nearly. Its grid takes 64 bits.
            let length = 254 - 2 * random.below(3);
            let tasks: Vec<Vec<u32>> = (0..8).map(|_| actions(random, length, &all)).collect();
            set_of(&[8; MOST_DEVICES], &tasks)
        }
        4 => {
            // Grids that are small when cut to 32 bits.
            let mut lengths = random.pick(&[
                [162, 144, 192, 158, 254, 242, 140, 170],
                [242, 194, 212, 254, 156, 182, 180, 236],
                [220, 224, 148, 142, 162, 140, 70, 88],
                [176, 250, 146, 192, 232, 178, 22, 178],
            ]);
            random.shuffle(&mut lengths);
            any_set(random, &lengths)
        }
        5 => {
            // 4,096 words and a few more or less.
            let mut words = family(random, false);
            let len = random.between(4093, 4099);
            words.pop();
            while words.len() < len {
                words.push(TASK);
            }
            words
        }
        6 => vec![device(8); random.between(14, 18)],
        7 => {
            let mut words = vec![TASK; random.between(6, 10)];
            words.push(end(words.len()));
            words
        }
        8 => {
            // A task of 253 to 257 actions.
            let devices = random.between(1, 16);
            let mut words = words_of(&vec![2; devices], &[]);
            words.pop();
            words.push(TASK);
            words.extend(actions(random, 258, &all[..devices]));
            words.truncate(devices + 1 + random.between(253, 257));
            words.push(if random.one_in(2) { TASK } else { end(words.len()) });
            words
        }
        9 => {
            // Two tasks of 254 actions pass, a third of 2 doesn't. With 16 devices and six idle tasks that is 533 words, the longest list that is accepted.
            let mut lengths = [254, 254, 2 * random.below(2), 0, 0, 0, 0, 0];
            if !random.one_in(4) {
                lengths[0] = 2;
            }
            random.shuffle(&mut lengths);
            let tasks: Vec<Vec<u32>> = lengths.iter().map(|&length| actions(random, length, &all)).collect();
            set_of(&capacities(random, MOST_DEVICES), &tasks)
        }
        10 => {
            // No device at all.
            words_of(&[], &vec![Vec::new(); random.between(1, 8)])
        }
        _ => {
            // A capacity of one less than the tasks, of as many, of one more.
            let tasks = random.between(2, 8);
            let capacity = random.between((tasks - 1).max(1), (tasks + 1).min(8));
            let lists: Vec<Vec<u32>> = (0..tasks).map(|_| vec![claim(0), release(0)]).collect();
            words_of(&[capacity], &lists)
        }
    }
}

// --- Claims of several units ---

/// Sets in which devices have several units, and claims take some of them, or all.
fn in_units(random: &mut Random, round: u64) -> Vec<u32> {
    let words = match round % 12 {
        0 | 1 => crossing(random),
        2 | 3 => few_devices(random),
        4 => family(random, false),
        5 => pocket(random),
        6 if round % 72 == 6 => large(random),
        6 => limits(random, round / 12),
        7 => sized(random, &[12, 50, 200, 600]),
        8 => return pool(random),
        _ => return rivals(random),
    };
    with_units(random, &words)
}

/// Biased to unsafe boxes for which it counts which of a device's holders a task waits for. Three tasks wait in a ring: the first holds a device and wants many units of
/// the pool, the second holds enough of the pool that the first must wait, and wants a device of the third; the third holds that one and some of the pool as well, which
/// the first needn't wait for, and wants the first one's device. So the third is in the ring, but not for what it has of the pool. Others claim of the pool beside them.
fn rivals(random: &mut Random) -> Vec<u32> {
    const POOL: usize = 0;
    const OF_FIRST: usize = 1;
    const OF_THIRD: usize = 2;
    const OWN: usize = 3; // the first device that tasks have for themselves
    let capacity = random.between(3, MOST_CAPACITY);
    let enough = random.between(1, capacity - 1);
    let beside = random.between(1, capacity - enough);
    let many = random.between(capacity - enough + 1, capacity);
    let mut rings = vec![
        vec![claim(OF_FIRST), claim_of(many, POOL)],
        vec![claim_of(enough, POOL), claim(OF_THIRD)],
        vec![claim(OF_THIRD), claim_of(beside, POOL), claim(OF_FIRST)],
    ];
    for _ in 0..random.pick(&[0, 0, 1, 1, 2]) {
        rings.push(vec![claim_of(random.between(1, capacity), POOL)]);
    }
    let tasks = rings.len();
    let mut lists: Vec<Vec<u32>> = Vec::new();
    for (number, claims) in rings.into_iter().enumerate() {
        let mut released: Vec<u32> = claims.iter().map(|word| release((word & 0xFFFF) as usize)).collect();
        random.shuffle(&mut released);
        let mut list = [claims, released].concat();
        if tasks == 3 && random.one_in(3) {
            let at = random.between(0, 2);
            list.splice(at..at, [claim(OWN + number), release(OWN + number)]);
        }
        if random.one_in(8) {
            list.swap(0, 1);
        }
        lists.push(list);
    }
    random.shuffle(&mut lists);
    in_all_units(&[&[capacity, 1, 1], &vec![1; tasks][..]].concat(), &lists)
}

/// As `set_of`, for tasks whose claims have units.
fn in_all_units(capacities: &[usize], tasks: &[Vec<u32>]) -> Vec<u32> {
    let claims = |device: usize| tasks.iter().flatten().any(|word| word & 0xF000_FFFF == claim(device));
    let kept: Vec<usize> = (0..capacities.len()).filter(|&device| claims(device)).collect();
    let number = |word: &u32| kept.iter().position(|&device| device == (word & 0xFFFF) as usize).unwrap() as u32;
    let renamed = |task: &Vec<u32>| task.iter().map(|word| word & 0xFFFF_0000 | number(word)).collect();
    let capacities: Vec<usize> = kept.iter().map(|&device| capacities[device]).collect();
    words_of(&capacities, &tasks.iter().map(renamed).collect::<Vec<Vec<u32>>>())
}

/// Many tasks that each claim and release one device, mostly few of its many units, so that forbidden boxes of few tasks and of many stand side by side.
fn pool(random: &mut Random) -> Vec<u32> {
    let tasks = random.between(3, MOST_TASKS);
    let capacity = random.between(2, MOST_CAPACITY);
    let most = random.pick(&[2, 2, 3, capacity]).min(capacity);
    let task = |_| -> Vec<u32> {
        let turns = if tasks < 5 { random.between(1, 3) } else { 1 };
        (0..turns).flat_map(|_| [claim_of(random.between(1, most), 0), release(0)]).collect()
    };
    let lists: Vec<Vec<u32>> = (0..tasks).map(task).collect();
    words_of(&[capacity], &lists)
}

/// The units of each claim of one device: any number; one or all; more than half, so that no two tasks hold it together; or the same for all.
fn units_of_claims(random: &mut Random, capacity: usize, claims: usize) -> Vec<usize> {
    let alike = random.between(1, capacity);
    let how = random.below(6);
    let units = |_| match how {
        0..=2 => random.between(1, capacity),
        3 => random.pick(&[1, capacity]),
        4 => random.between(capacity / 2 + 1, capacity),
        _ => alike,
    };
    (0..claims).map(units).collect()
}

/// The list with other capacities, mostly above 1, and units for the claims of what it declares. Nothing else in it changes.
fn with_units(random: &mut Random, words: &[u32]) -> Vec<u32> {
    let mut list = words.to_vec();
    for number in 0..declared(words) {
        let capacity = random.pick(&[1, 2, 2, 2, 3, 3, 3, 4, 5, MOST_CAPACITY]);
        list[number] = device(capacity);
        let claims: Vec<usize> = (0..list.len()).filter(|&index| list[index] == claim(number)).collect();
        for (&index, units) in claims.iter().zip(units_of_claims(random, capacity, claims.len())) {
            list[index] = claim_of(units, number);
        }
    }
    list
}

/// A list in which claims have several units, with one word that may not stand: units above the capacity, by one or by far, where another fault stands beside or
/// not; units or other high bits in a RELEASE, or bits 27 to 24 in a CLAIM; a device of 16 bits that looks like a declared one when cut to 8 or to 4.
fn damaged_units(random: &mut Random, round: u64) -> Vec<u32> {
    let mut words = in_units(random, round / 8);
    let of_kind = |words: &[u32], kind: u32| -> Vec<usize> { (0..words.len()).filter(|&index| words[index] >> 28 == kind).collect() };
    let (claims, releases) = (of_kind(&words, 3), of_kind(&words, 4));
    if claims.is_empty() || releases.is_empty() {
        return words;
    }
    let (at, released_at) = (random.pick(&claims), random.pick(&releases));
    let device = (words[at] & 0xFFFF) as usize;
    match round % 8 {
        0 => words[at] = too_many_units(random, &words, device),
        1 => {
            // Claimed again while it is held, with units that no capacity has: 28 comes before 8.
            let again = too_many_units(random, &words, device);
            words.insert(at + 1, again);
        }
        2 => words[at] = claim_of(MOST_UNITS, device),
        3 => words[at] |= random.between(1, 15) as u32 * 0x0100_0000,
        4 => words[released_at] |= random.pick(&[1, 2, 7, 0xFF, 0x100, 0xF00]) << 16,
        5 => words[at] = words[at] & 0xFFFF_0000 | random.pick(&[declared(&words), 16, 16 + device, 0x100 + device, 0x8000 + device]) as u32,
        6 => words = past_the_last_action(random),
        _ => {
            // Two claims of one device, each of which would do alone, before either is released.
            let units = random.between(1, MOST_CAPACITY);
            words.insert(at + 1, claim_of(units, device));
        }
    }
    words
}

/// A claim of more units than the list's device has: by one, by a few, or as many as a word can say.
fn too_many_units(random: &mut Random, words: &[u32], device: usize) -> u32 {
    let capacity = words.get(device).map_or(0, |word| (word & 15) as usize);
    claim_of(random.pick(&[capacity + 1, capacity + 1, capacity + 2, MOST_CAPACITY + 1, 128, MOST_UNITS]), device)
}

/// 255 actions, and a claim behind them that is one too many whatever its units are, of a device that is there or not.
fn past_the_last_action(random: &mut Random) -> Vec<u32> {
    let mut words = words_of(&[2, 1], &[]);
    words.pop();
    words.push(TASK);
    for i in 0..255 {
        words.push(if i % 2 == 0 { claim_of(2, 0) } else { release(0) });
    }
    let units = random.pick(&[1, 2, 3, MOST_UNITS]);
    words.push(random.pick(&[claim_of(units, 0), claim_of(units, 1), claim_of(units, 2), claim_of(units, 1) | 0x0100_0000]));
    words.push(end(words.len()));
    words
}

// --- Devices that no task claims ---

/// Any list, good or bad, with such devices put in.
fn unclaimed(random: &mut Random, round: u64) -> Vec<u32> {
    let words = match round % 9 {
        0 => crossing(random),
        1 => few_devices(random),
        2 => pocket(random),
        3 => family(random, false),
        4 => limits(random, round / 9),
        5 => faulty(random, 1 + (round / 9 % FAULTS) as usize),
        6 => damaged(random),
        7 => many_devices(random),
        _ => sized(random, &[12, 50, 200, 600]),
    };
    let words = if random.one_in(3) { with_units(random, &words) } else { words };
    match unclaimed_places(random, &words) {
        None => words,
        Some(places) => with_unclaimed(random, &words, &places),
    }
}

/// Numbers, rising, for some devices more than the list has: one or several, anywhere among its own. None if it has 16.
pub fn unclaimed_places(random: &mut Random, words: &[u32]) -> Option<Vec<usize>> {
    let devices = declared(words);
    if devices >= MOST_DEVICES {
        return None;
    }
    let more = match random.below(6) {
        0 => MOST_DEVICES - devices,
        1 | 2 => random.between(1, MOST_DEVICES - devices),
        _ => 1,
    };
    let mut places: Vec<usize> = (0..devices + more).collect();
    random.shuffle(&mut places);
    places.truncate(more);
    places.sort_unstable();
    Some(places)
}

/// The list with devices of these numbers, rising, besides its own, which are numbered on; nothing else in it changes. An END that counts right counts right again.
pub fn with_unclaimed(random: &mut Random, words: &[u32], places: &[usize]) -> Vec<u32> {
    let devices = declared(words);
    let own: Vec<usize> = (0..devices + places.len()).filter(|device| !places.contains(device)).collect();
    let mut list = words.to_vec();
    if let Some(last) = list.last_mut().filter(|last| **last == end(words.len() - 1)) {
        *last = end(words.len() - 1 + places.len());
    }
    for word in &mut list[devices..] {
        // A claim keeps its units; the field of a release is its device.
        let named = match *word >> 28 {
            3 => *word & 0xFFFF,
            4 => *word & 0x0FFF_FFFF,
            _ => continue,
        };
        if (named as usize) < devices {
            *word = *word - named + own[named as usize] as u32;
        }
    }
    for &place in places {
        list.insert(place, device(random.between(1, 8)));
    }
    list
}

/// How many devices a list begins with.
fn declared(words: &[u32]) -> usize {
    words.iter().take_while(|word| **word >> 28 == 1).count()
}

// --- Bad lists ---

/// Any word that might do harm at some place.
fn odd_word(random: &mut Random, index: usize) -> u32 {
    match random.below(6) {
        0 => random.next() as u32,
        1 => (random.below(16) as u32) << 28 | random.below(20) as u32,
        2 => end(index),
        3 => random.pick(&[TASK, device(1), device(9), claim(0), release(0), claim(15), claim(16), end(0), claim_of(2, 0), claim_of(MOST_UNITS, 0)]),
        4 => (random.between(1, 5) as u32) << 28 | random.pick(&[0x0FFF_FFFF, 0x0100_0000, 0x00FF_0000, 0x0001_0001, 0x100, 0x10]),
        _ => (random.between(1, 5) as u32) << 28 | random.below(4) as u32,
    }
}

/// A list made to bring one refusal, at any of the places where it can come; an earlier fault may still win.
fn faulty(random: &mut Random, number: usize) -> Vec<u32> {
    let mut words = match random.below(4) {
        0 => crossing(random),
        1 => family(random, false),
        _ => sized(random, &[50, 300, 2000]),
    };
    let at_any = |random: &mut Random, words: &[u32], kinds: &[u32]| -> Option<usize> {
        let places: Vec<usize> = (0..words.len()).filter(|&i| kinds.contains(&(words[i] >> 28))).collect();
        if places.is_empty() {
            None
        } else {
            Some(random.pick(&places))
        }
    };
    // A list that is changed in the middle has its END put right, so that the change alone is what is wrong.
    let set_end = |words: &mut Vec<u32>| {
        let last = words.len() - 1;
        words[last] = end(last);
    };
    match number {
        1 => words.clear(),
        2 => {
            let len = random.pick(&[4097, 4097, 4098, 5000, 16384, 70000]);
            let zeros = random.one_in(2);
            while words.len() < len {
                words.push(if zeros { 0 } else { random.next() as u32 });
            }
        }
        3 => {
            for _ in 0..random.between(1, 5) {
                let index = words.len();
                words.push(odd_word(random, index));
            }
        }
        4 => {
            let at = random.below(words.len());
            words[at] = random.pick(&[0, 6, 7, 8, 9, 10, 15]) << 28 | words[at] & 0x0FFF_FFFF;
        }
        5 => {
            if let (Some(at), false) = (at_any(random, &words, &[2]), random.one_in(3)) {
                let after = random.between(at + 1, words.len() - 1);
                words.insert(after, device(random.between(0, 9)));
                set_end(&mut words);
            } else {
                let first = words.iter().position(|word| *word == TASK).unwrap();
                let at = random.between(0, first);
                words.insert(at, random.pick(&[claim(0), release(0), claim(99), release(99), end(at), end(at + 1)]));
            }
        }
        6 => {
            let at = random.below(words.len());
            let high = random.pick(&[1 << 4, 1 << 8, 1 << 16, 1 << 24, 1 << 27]);
            // In a claim bits 23 to 16 are units.
            let high_of_claim = random.pick(&[1 << 4, 1 << 8, 1 << 15, 1 << 24, 1 << 27]);
            words[at] = match words[at] >> 28 {
                1 => random.pick(&[device(0), device(9), device(16), words[at] | high]),
                2 => TASK | random.pick(&[1, 2, high, 0x0FFF_FFFF]),
                5 => random.pick(&[words[at] + 1, words[at] - 1, words[at] | high, end(0)]),
                3 => 3 << 28 | random.pick(&[device_count(&words), 16, 255, 0x0FFF_FFFF, words[at] & 15 | high_of_claim]),
                kind => kind << 28 | random.pick(&[device_count(&words), 16, 255, 0x0FFF_FFFF, words[at] & 15 | high]),
            };
        }
        7 => match random.below(3) {
            0 => {
                let devices = device_count(&words) as usize;
                for _ in devices..random.between(17, 19) {
                    words.insert(0, device(random.between(1, 8)));
                }
                set_end(&mut words);
            }
            1 => {
                let tasks = words.iter().filter(|word| **word == TASK).count();
                let last = words.len() - 1;
                for _ in tasks..random.between(9, 10) {
                    words.insert(last, TASK);
                }
                set_end(&mut words);
            }
            _ => {
                // 255 actions leave something held, and the next is one too many, whatever it is.
                words = words_of(&[1, 1], &[]);
                words.pop();
                words.resize(words.len() + random.between(1, 3), TASK);
                for i in 0..255 {
                    words.push(if i % 2 == 0 { claim(0) } else { release(0) });
                }
                words.push(random.pick(&[claim(0), claim(1), release(0), release(1), claim(2)]));
                words.push(end(words.len()));
            }
        },
        8 => {
            if let Some(at) = at_any(random, &words, &[3]) {
                words.insert(at + 1, words[at]);
                set_end(&mut words);
            }
        }
        9 => {
            if let Some(at) = at_any(random, &words, &[4]) {
                words.insert(at + 1, words[at]);
                set_end(&mut words);
            }
        }
        10 => {
            if let Some(at) = at_any(random, &words, &[4]) {
                words.remove(at);
                set_end(&mut words);
            }
        }
        11 => words.truncate(random.below(words.len())),
        12 => {
            let tasks = random.between(3, 8);
            let lengths: Vec<usize> = (0..tasks).map(|_| 2 * random.between(20, 127)).collect();
            words = any_set(random, &lengths);
        }
        _ => {
            if let Some(at) = at_any(random, &words, &[3]) {
                words[at] = too_many_units(random, &words, (words[at] & 0xFFFF) as usize);
            }
        }
    }
    words
}

fn device_count(words: &[u32]) -> u32 {
    words.iter().filter(|word| **word >> 28 == 1).count() as u32
}

/// A good list with a few words changed, dropped, doubled, swapped, or one bit turned.
fn damaged(random: &mut Random) -> Vec<u32> {
    let mut words = match random.below(3) {
        0 => crossing(random),
        1 => family(random, false),
        _ => sized(random, &[50, 300]),
    };
    for _ in 0..random.between(1, 3) {
        if words.is_empty() {
            break;
        }
        let at = random.below(words.len());
        match random.below(6) {
            0 => words[at] ^= 1 << random.below(32),
            1 => words[at] = odd_word(random, at),
            2 => {
                words.remove(at);
            }
            3 => words.insert(at, words[at]),
            4 => {
                let other = random.below(words.len());
                words.swap(at, other);
            }
            _ => words[at] = (words[at] & 0xF000_0000) | random.below(4) as u32,
        }
        // Half of them get a right END again, so that what comes behind the words is reached.
        if random.one_in(2) && words.last().is_some_and(|word| word >> 28 == 5) {
            let last = words.len() - 1;
            words[last] = end(last);
        }
    }
    words
}

/// Nothing but noise, or noise of the right kinds.
fn noise(random: &mut Random) -> Vec<u32> {
    let len = if random.one_in(20) { random.between(1, 4100) } else { random.between(1, 40) };
    let likely = random.one_in(2);
    (0..len).map(|index| if likely { odd_word(random, index) } else { random.next() as u32 }).collect()
}

// --- What is lent beside the words ---

/// A length for a slice of which `needed` are needed: too short, just enough, or longer.
pub fn length(random: &mut Random, needed: usize) -> usize {
    match random.below(8) {
        0 => 0,
        1 => needed.saturating_sub(1),
        2 if needed > 0 => random.below(needed),
        3 | 4 => needed,
        5 => needed + 1,
        6 => needed + random.below(100),
        _ => needed + random.below(10),
    }
}

/// A map to lend: the set's own, or one that is damaged, or that has nothing to do with it.
pub fn lent_map(random: &mut Random, own: &[u8]) -> Vec<u8> {
    const BYTES: [u8; 8] = [0, 1, 2, 3, 4, 5, 128, 255];
    let mut map = own.to_vec();
    match random.below(10) {
        0..=2 => {}
        3 => {
            for _ in 0..random.between(1, 8) {
                let at = random.below(map.len());
                map[at] = random.pick(&BYTES);
            }
        }
        4..=6 => {
            // Every so often a step is shut: routes get stuck, and a bid meets a release at a forbidden state.
            let rare = random.between(2, 12);
            for byte in map.iter_mut() {
                if random.one_in(rare) {
                    *byte = random.pick(&BYTES[1..]);
                }
            }
        }
        7 => map.iter_mut().for_each(|byte| *byte = random.pick(&BYTES)),
        8 => map.iter_mut().for_each(|byte| *byte = random.pick(&[0, 0, 0, 1])),
        _ => map.fill(random.pick(&BYTES)),
    }
    // Beyond the grid anything may stand; too short a map brings 13.
    let keep = map.len();
    match random.below(12) {
        0 => map.truncate(random.below(keep)),
        1 => map.truncate(keep - 1),
        2 | 3 => map.extend((0..random.between(1, 20)).map(|_| random.next() as u8)),
        _ => {}
    }
    map
}

fn grants(random: &mut Random) -> u32 {
    match random.below(4) {
        0 => random.pick(&[0, 1, u32::MAX, u32::MAX - 1, 1 << 31, (1 << 31) - 1]),
        _ => random.next() as u32,
    }
}

/// Settings that a bid may bring: mostly small ones, whose shares are soon spent.
pub fn allowed_settings(random: &mut Random) -> Settings {
    match random.below(8) {
        0 => Settings { share: random.between(1, 255) as u32, window: random.between(1, 255) as u32 },
        1 => Settings { share: random.pick(&[1, 2, 254, 255]), window: random.pick(&[1, 2, 254, 255]) },
        2 => Settings { share: random.between(1, 4) as u32, window: random.between(10, 255) as u32 },
        _ => Settings { share: random.pick(&[1, 1, 1, 2, 2, 3, 4, 5]), window: random.between(1, 12) as u32 },
    }
}

/// One that no bid may bring; some look like one that is allowed when cut to 8 or 16 bits, or taken for a signed number.
fn wrong_setting(random: &mut Random) -> u32 {
    let small = random.between(1, 9) as u32;
    random.pick(&[
        0,
        0,
        256,
        256,
        256 + small,
        511,
        512,
        1 << 16,
        (1 << 16) + 1,
        (1 << 16) + small,
        (1 << 24) + small,
        1 << 31,
        (1 << 31) + small,
        u32::MAX,
        u32::MAX - small,
    ])
}

/// Any settings: one in six has a share, a window or both that aren't allowed.
pub fn settings(random: &mut Random) -> Settings {
    let mut settings = allowed_settings(random);
    match random.below(18) {
        0 => settings.share = wrong_setting(random),
        1 => settings.window = wrong_setting(random),
        2 => settings = Settings { share: wrong_setting(random), window: wrong_setting(random) },
        _ => {}
    }
    settings
}

/// Counts for a set of so many tasks: none; near the share; adding up to one less than the window, to the window or to more; of an absent task; or any.
fn counts(random: &mut Random, tasks: usize, settings: Settings) -> [u8; TASKS] {
    let mut counts = [0u8; TASKS];
    let near_share =
        |random: &mut Random| random.pick(&[0, 0, settings.share.saturating_sub(1), settings.share, settings.share.saturating_add(1)]).min(255) as u8;
    match random.below(12) {
        0 | 1 => {}
        2..=5 => counts[..tasks].fill_with(|| near_share(random)),
        6..=9 => {
            let window = settings.window.min(255) as usize;
            let (below, any) = (window.saturating_sub(1), random.below(window + 1));
            for _ in 0..random.pick(&[below, below, window, window + 1, any]) {
                let count = &mut counts[random.below(tasks)];
                *count = count.saturating_add(1);
            }
        }
        10 if tasks < TASKS => counts[random.between(tasks, TASKS - 1)] = random.pick(&[1, 1, 2, 255]),
        _ => counts = random.next().to_le_bytes(),
    }
    counts
}

/// A record for a set and a bid with these settings: at a state of any kind, mostly an open one, or one that no state of the set has.
pub fn record(random: &mut Random, set: &Set, map: &[u8], settings: Settings) -> Record {
    let tasks = set.tasks.len();
    let mut positions = [0u8; TASKS];
    let tries = if random.one_in(3) { 1 } else { 10 };
    for _ in 0..tries {
        for (task, position) in positions.iter_mut().enumerate().take(tasks) {
            *position = random.between(0, set.length(task)) as u8;
        }
        if map.get(set.rank(&positions)) == Some(&0) {
            break;
        }
    }
    match random.below(12) {
        0 => positions = set.end(),
        1 => {
            // One action before the end.
            positions = set.end();
            let task = random.below(tasks);
            positions[task] = positions[task].saturating_sub(1);
        }
        2 => {
            let task = random.below(TASKS);
            let most = if task < tasks { set.length(task) } else { 0 };
            positions[task] = random.pick(&[most as u8 + 1, 255, 128]);
        }
        3 => positions[random.below(TASKS)] = random.next() as u8,
        _ => {}
    }
    Record { positions, grants: grants(random), counts: counts(random, tasks, settings) }
}

/// Map, record, task and settings of a bid that may well be answered Share spent: the record's state is open, the task's next state mostly is, those of the other
/// tasks have any bytes, and the counts of all are near the share. None if every task is finished there.
pub fn shared_bid(random: &mut Random, set: &Set, own: &[u8]) -> Option<(Vec<u8>, Record, usize, Settings)> {
    const BYTES: [u8; 8] = [0, 0, 1, 2, 3, 4, 128, 255];
    let share = random.between(1, 5) as u32;
    let mut record = Record::FRESH;
    for task in 0..set.tasks.len() {
        record.positions[task] = random.between(0, set.length(task)) as u8;
        record.counts[task] = random.pick(&[0, share - 1, share, share + 1]) as u8;
    }
    let nexts: Vec<(usize, State)> = (0..set.tasks.len()).filter_map(|task| Some((task, set.next(&record.positions, task)?))).collect();
    if nexts.is_empty() {
        return None;
    }
    let (task, _) = random.pick(&nexts);
    let mut map = own.to_vec();
    map[set.rank(&record.positions)] = 0;
    for (other, next) in nexts {
        map[set.rank(&next)] = if other == task && !random.one_in(4) { 0 } else { random.pick(&BYTES) };
    }
    let window = random.pick(&[record.window_grants() + 1, record.window_grants() + 2, 255]);
    Some((map, record, task, Settings { share, window }))
}

/// A record that knows nothing of the set.
pub fn any_record(random: &mut Random) -> Record {
    let mut positions = [0; TASKS];
    if random.one_in(2) {
        positions = random.next().to_le_bytes();
    }
    let counts = if random.one_in(2) { random.next().to_le_bytes() } else { [0; TASKS] };
    Record { positions, grants: grants(random), counts }
}

/// A task's number: mostly one of the set's, else one that is none, some of which look like one when cut to 32 or 8 bits.
pub fn task(random: &mut Random, tasks: usize) -> usize {
    if !random.one_in(6) {
        return random.below(tasks);
    }
    let small = random.below(8) as u64;
    random.pick(&[tasks as u64, 7, 8, 255, 256 + small, 1 << 16, 1 << 32, (1 << 32) + small, 1 << 63, (1 << 63) + small, u64::MAX, u64::MAX - small]) as usize
}

/// A round: every task, in any order, some of them twice, and now and then a number that no task has.
pub fn round(random: &mut Random, tasks: usize) -> Vec<usize> {
    let mut round: Vec<usize> = (0..tasks).collect();
    for _ in 0..random.pick(&[0, 0, 0, 1, 2]) {
        round.push(task(random, tasks));
    }
    random.shuffle(&mut round);
    round
}

/// A task's number as above, and mostly one that has actions left.
pub fn unfinished_task(random: &mut Random, set: &Set, record: &Record) -> usize {
    let left: Vec<usize> = (0..set.tasks.len()).filter(|&task| (record.positions[task] as usize) < set.length(task)).collect();
    if left.is_empty() || random.one_in(4) {
        return task(random, set.tasks.len());
    }
    random.pick(&left)
}
