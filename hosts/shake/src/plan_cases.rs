//! Makers of plans to question: plans that no set need have, plans with one fault of a known kind and place, and words that are hardly a plan.

// Faults are of one type, whether they change a plan's length or not.
#![allow(clippy::ptr_arg)]

use crate::random::Random;
use crate::reference::{State, TASKS};

fn kind(word: u32) -> u32 {
    word >> 28
}

fn field(word: u32) -> u32 {
    word & 0x0FFF_FFFF
}

fn word(kind: u32, field: usize) -> u32 {
    kind << 28 | field as u32
}

fn side(task: usize, lowest: usize, highest: usize) -> u32 {
    word(8, task << 16 | lowest << 8 | highest)
}

// --- Plans ---

/// A bound of a side: mostly a small one, as in plans of sets, and the limits of a byte.
fn bound(random: &mut Random) -> usize {
    match random.below(6) {
        0 => random.below(256),
        1 => random.pick(&[0, 1, 127, 128, 254, 255]),
        _ => random.below(6),
    }
}

fn put_box(random: &mut Random, plan: &mut Vec<u32>, head: u32, tasks: usize) {
    plan.push(head);
    for task in 0..tasks {
        let (one, other) = (bound(random), bound(random));
        plan.push(side(task, one.min(other), one.max(other)));
    }
}

/// A plan of the layout that no set need have: any boxes and ranks, at least this many of each kind.
pub fn any_plan(random: &mut Random, tasks: usize, least: usize) -> Vec<u32> {
    let mut plan = Vec::new();
    for _ in 0..least + random.below(4) {
        let device = random.below(16);
        put_box(random, &mut plan, word(6, device), tasks);
    }
    for _ in 0..least + random.below(4) {
        put_box(random, &mut plan, word(7, 0), tasks);
    }
    for kind in [9, 10] {
        let mut rank = random.pick(&[0, 1, 65_535, (1 << 28) - 40]);
        for _ in 0..least + random.below(4) {
            plan.push(word(kind, rank));
            rank += random.between(1, 8);
        }
    }
    plan.push(word(5, plan.len()));
    plan
}

// --- States ---

/// Any eight positions.
pub fn any_state(random: &mut Random) -> State {
    if random.one_in(2) {
        return random.next().to_le_bytes();
    }
    std::array::from_fn(|_| random.below(7) as u8)
}

/// At the bounds of one of the boxes in these words, if they have any, or one position next to them.
pub fn state_near(random: &mut Random, plan: &[u32], tasks: usize) -> State {
    let mut state = any_state(random);
    let heads = heads(plan);
    if heads.is_empty() {
        return state;
    }
    let head = random.pick(&heads);
    for (position, word) in state.iter_mut().take(tasks).zip(&plan[head + 1..]) {
        let [highest, lowest, ..] = word.to_le_bytes();
        *position = random.pick(&[lowest, highest]);
    }
    if random.one_in(2) {
        let task = random.below(tasks);
        state[task] = if random.one_in(2) { state[task].wrapping_add(1) } else { state[task].wrapping_sub(1) };
    }
    state
}

/// The same state with other positions past the task count.
pub fn other_past(random: &mut Random, state: &State, tasks: usize) -> State {
    let mut other = *state;
    for position in other.iter_mut().take(TASKS).skip(tasks) {
        *position = position.wrapping_add(random.between(1, 255) as u8);
    }
    other
}

/// Task counts that are none, some of which look like one when cut to 32 or 8 bits.
pub fn bad_task_counts(random: &mut Random) -> [usize; 9] {
    let count = random.between(1, 8) as u64;
    [0, 9, 10, 255, 256 + count, 1 << 32, (1 << 32) + count, (1 << 63) + count, u64::MAX].map(|count| count as usize)
}

// --- Faults ---

/// One fault: it changes a plan and tells the place of the first word that is then outside the layout. None if this plan has no place for it.
type Fault = fn(&mut Random, &mut Vec<u32>, usize) -> Option<usize>;

/// Every fault by its name.
pub const FAULTS: [(&str, Fault); 20] = [
    ("unknown kind", unknown_kind),
    ("kind out of order", out_of_order),
    ("device over 15", device_over_15),
    ("field in kind 7", field_in_7),
    ("equal ranks", equal_ranks),
    ("falling ranks", falling_ranks),
    ("reached rank behind another", late_rank),
    ("wrong count in END", wrong_count),
    ("word after END", after_end),
    ("END too early", early_end),
    ("END missing", no_end),
    ("END in a box", end_in_box),
    ("task twice", task_twice),
    ("tasks out of order", tasks_out_of_order),
    ("another task", another_task),
    ("lowest above highest", low_above_high),
    ("unused bit", unused_bit),
    ("another kind in a box", kind_in_box),
    ("side missing", side_missing),
    ("side too many", side_too_many),
];

fn pick_at(random: &mut Random, plan: &[u32], fits: impl Fn(u32) -> bool) -> Option<usize> {
    let places: Vec<usize> = (0..plan.len()).filter(|&at| fits(plan[at])).collect();
    if places.is_empty() {
        return None;
    }
    Some(random.pick(&places))
}

/// The indexes of the boxes' first words.
fn heads(plan: &[u32]) -> Vec<usize> {
    (0..plan.len()).filter(|&at| matches!(kind(plan[at]), 6 | 7)).collect()
}

/// The index of any side, and its task.
fn any_side(random: &mut Random, plan: &[u32]) -> Option<(usize, usize)> {
    let at = pick_at(random, plan, |word| kind(word) == 8)?;
    Some((at, (plan[at] >> 16 & 0xFF) as usize))
}

/// A bit that isn't among the lowest ones.
fn bit_from(random: &mut Random, lowest: usize) -> u32 {
    1 << random.between(lowest, 27)
}

fn unknown_kind(random: &mut Random, plan: &mut Vec<u32>, _tasks: usize) -> Option<usize> {
    let at = pick_at(random, plan, |word| kind(word) != 8)?;
    plan[at] = random.pick(&[0, 1, 2, 3, 4, 8, 11, 12, 13, 14, 15]) << 28 | field(plan[at]);
    Some(at)
}

/// A box before which one of a later kind, or a rank, stands.
fn out_of_order(random: &mut Random, plan: &mut Vec<u32>, tasks: usize) -> Option<usize> {
    let first_unsafe = plan.iter().position(|&word| kind(word) == 7);
    let first_rank = plan.iter().position(|&word| is_rank(word));
    let late: Vec<(usize, u32)> = (0..plan.len())
        .filter(|&at| kind(plan[at]) != 8)
        .flat_map(|at| [(at, 6), (at, 7)])
        .filter(|&(at, kind)| first_rank.is_some_and(|rank| rank < at) || (kind == 6 && first_unsafe.is_some_and(|head| head < at)))
        .collect();
    if late.is_empty() {
        return None;
    }
    let (at, kind) = random.pick(&late);
    let mut late_box = Vec::new();
    put_box(random, &mut late_box, word(kind, 0), tasks);
    plan.splice(at..at, late_box);
    mended_end(plan);
    Some(at)
}

fn device_over_15(random: &mut Random, plan: &mut Vec<u32>, _tasks: usize) -> Option<usize> {
    let at = pick_at(random, plan, |word| kind(word) == 6)?;
    plan[at] = if random.one_in(4) { word(6, 16) } else { plan[at] | bit_from(random, 4) };
    Some(at)
}

fn field_in_7(random: &mut Random, plan: &mut Vec<u32>, _tasks: usize) -> Option<usize> {
    let at = pick_at(random, plan, |word| kind(word) == 7)?;
    plan[at] |= bit_from(random, 0);
    Some(at)
}

/// A dead state, reached or not.
fn is_rank(word: u32) -> bool {
    matches!(kind(word), 9 | 10)
}

fn equal_ranks(random: &mut Random, plan: &mut Vec<u32>, _tasks: usize) -> Option<usize> {
    let at = pick_at(random, plan, is_rank)?;
    plan.insert(at + 1, plan[at]);
    mended_end(plan);
    Some(at + 1)
}

fn falling_ranks(random: &mut Random, plan: &mut Vec<u32>, _tasks: usize) -> Option<usize> {
    let at = pick_at(random, plan, |word| is_rank(word) && field(word) > 0)?;
    let lower = if random.one_in(2) { field(plan[at]) - 1 } else { random.below(field(plan[at]) as usize) as u32 };
    plan.insert(at + 1, word(kind(plan[at]), lower as usize));
    mended_end(plan);
    Some(at + 1)
}

/// Behind a dead state that isn't reached one that is, whatever its rank.
fn late_rank(random: &mut Random, plan: &mut Vec<u32>, _tasks: usize) -> Option<usize> {
    let at = pick_at(random, plan, |word| kind(word) == 10)?;
    let rank = if random.one_in(2) { random.below(1 << 28) } else { field(plan[at]) as usize };
    plan.insert(at + 1, word(9, rank));
    mended_end(plan);
    Some(at + 1)
}

fn wrong_count(random: &mut Random, plan: &mut Vec<u32>, _tasks: usize) -> Option<usize> {
    let end = plan.len() - 1;
    plan[end] = match random.below(4) {
        0 => word(5, end + 1),
        1 => word(5, end.wrapping_sub(1) & 0x0FFF_FFFF),
        _ => plan[end] ^ bit_from(random, 0),
    };
    Some(end)
}

fn after_end(random: &mut Random, plan: &mut Vec<u32>, _tasks: usize) -> Option<usize> {
    let place = plan.len();
    for _ in 0..random.between(1, 3) {
        let behind = odd_word(random, plan.len());
        plan.push(behind);
    }
    Some(place)
}

/// END with the right count, and then the words that were there.
fn early_end(random: &mut Random, plan: &mut Vec<u32>, _tasks: usize) -> Option<usize> {
    let at = pick_at(random, plan, |word| kind(word) != 8)?;
    plan.insert(at, word(5, at));
    Some(at + 1)
}

fn no_end(_random: &mut Random, plan: &mut Vec<u32>, _tasks: usize) -> Option<usize> {
    plan.pop();
    Some(plan.len())
}

fn end_in_box(random: &mut Random, plan: &mut Vec<u32>, _tasks: usize) -> Option<usize> {
    let (at, _) = any_side(random, plan)?;
    plan[at] = word(5, at);
    if random.one_in(2) {
        plan.truncate(at + 1);
    }
    Some(at)
}

fn task_twice(random: &mut Random, plan: &mut Vec<u32>, _tasks: usize) -> Option<usize> {
    let at = pick_at(random, plan, |word| kind(word) == 8 && field(word) >> 16 > 0)?;
    plan[at] = if random.one_in(2) { plan[at - 1] } else { plan[at] - (1 << 16) };
    Some(at)
}

fn tasks_out_of_order(random: &mut Random, plan: &mut Vec<u32>, _tasks: usize) -> Option<usize> {
    let later = pick_at(random, plan, |word| kind(word) == 8 && field(word) >> 16 > 0)?;
    let earlier = later - random.between(1, (field(plan[later]) >> 16) as usize);
    plan.swap(earlier, later);
    Some(earlier)
}

fn another_task(random: &mut Random, plan: &mut Vec<u32>, _tasks: usize) -> Option<usize> {
    let (at, task) = any_side(random, plan)?;
    let other = (task + random.between(1, 255)) % 256;
    plan[at] = word(8, other << 16) | plan[at] & 0xFFFF;
    Some(at)
}

fn low_above_high(random: &mut Random, plan: &mut Vec<u32>, _tasks: usize) -> Option<usize> {
    let (at, task) = any_side(random, plan)?;
    let highest = if random.one_in(3) { random.pick(&[0, 254]) } else { random.below(255) };
    let lowest = if random.one_in(2) { highest + 1 } else { random.between(highest + 1, 255) };
    plan[at] = side(task, lowest, highest);
    Some(at)
}

fn unused_bit(random: &mut Random, plan: &mut Vec<u32>, _tasks: usize) -> Option<usize> {
    let (at, _) = any_side(random, plan)?;
    plan[at] |= bit_from(random, 24);
    Some(at)
}

fn kind_in_box(random: &mut Random, plan: &mut Vec<u32>, _tasks: usize) -> Option<usize> {
    let (at, _) = any_side(random, plan)?;
    plan[at] = random.pick(&[0, 1, 4, 5, 6, 7, 9, 10, 11, 12, 15]) << 28 | field(plan[at]);
    Some(at)
}

fn side_missing(random: &mut Random, plan: &mut Vec<u32>, _tasks: usize) -> Option<usize> {
    let (at, _) = any_side(random, plan)?;
    plan.remove(at);
    mended_end(plan);
    Some(at)
}

fn side_too_many(random: &mut Random, plan: &mut Vec<u32>, tasks: usize) -> Option<usize> {
    let heads = heads(plan);
    if heads.is_empty() {
        return None;
    }
    let behind = random.pick(&heads) + 1 + tasks;
    plan.insert(behind, side(tasks, 0, 1));
    mended_end(plan);
    Some(behind)
}

/// The last word counts right again, so that the fault before it is the only one.
fn mended_end(plan: &mut [u32]) {
    let end = plan.len() - 1;
    plan[end] = word(5, end);
}

// --- Words that are hardly a plan ---

/// Any word that might stand in a plan, or nearly.
fn odd_word(random: &mut Random, index: usize) -> u32 {
    match random.below(7) {
        0 => random.next() as u32,
        1 => word(5, index),
        2 => word(6, random.below(18)),
        3 => word(7, 0),
        4 => {
            let kind = random.pick(&[9, 10]);
            word(kind, random.below(9))
        }
        5 => word(random.below(16) as u32, random.below(3)),
        _ => {
            let (task, lowest, highest) = (random.below(3), random.below(3), random.below(5));
            side(task, lowest, highest)
        }
    }
}

/// Noise, or noise of the right kinds.
pub fn noise(random: &mut Random) -> Vec<u32> {
    let likely = !random.one_in(4);
    (0..random.below(12)).map(|index| if likely { odd_word(random, index) } else { random.next() as u32 }).collect()
}

/// The plan with a few words changed, dropped, doubled or exchanged, or a bit turned.
pub fn damaged(random: &mut Random, plan: &[u32]) -> Vec<u32> {
    let mut plan = plan.to_vec();
    for _ in 0..random.between(1, 3) {
        if plan.is_empty() {
            break;
        }
        let at = random.below(plan.len());
        match random.below(5) {
            0 => plan[at] ^= 1 << random.below(32),
            1 => plan[at] = odd_word(random, at),
            2 => {
                plan.remove(at);
            }
            3 => plan.insert(at, plan[at]),
            _ => {
                let other = random.below(plan.len());
                plan.swap(at, other);
            }
        }
    }
    // Half of them get a right END again.
    if random.one_in(2) && plan.last().is_some_and(|&word| kind(word) == 5) {
        mended_end(&mut plan);
    }
    plan
}
