//! Claims of several units: what docs/SCOPE.md says of permitted states and forbidden boxes, held to the map and the plan of a set, apart from the reference; and which
//! sorts of lists with units there were. All of it is had from the words, by a reading of its own.

use crate::random::Random;
use crate::reference::{Refusal, Worked};
use std::fmt::{Display, Formatter, Result as Written};

const TASKS: usize = 8;
const DEVICES: usize = 16;
const STATES: usize = 4; // looked at of each set, besides the start

/// A hold as the words say it.
#[derive(Clone, Copy)]
struct Hold {
    task: usize,
    device: usize,
    low: u8,
    high: u8,
    units: usize,
}

/// What an accepted list says.
struct Declared {
    capacities: Vec<usize>,
    lengths: Vec<u8>,
    holds: Vec<Hold>,
}

/// The device that a CLAIM names, and how many units it takes.
fn taken_by(claim: u32) -> (usize, usize) {
    ((claim & 0xFFFF) as usize, (claim >> 16 & 0xFF) as usize + 1)
}

impl Declared {
    fn new(words: &[u32]) -> Declared {
        let mut declared = Declared { capacities: Vec::new(), lengths: Vec::new(), holds: Vec::new() };
        // The last claim of each device: the position behind it, and its units.
        let mut claimed = [(0, 0); DEVICES];
        for &word in words {
            let field = (word & 0x0FFF_FFFF) as usize;
            match word >> 28 {
                1 => declared.capacities.push(field),
                2 => declared.lengths.push(0),
                3 => {
                    let (device, units) = taken_by(word);
                    claimed[device] = (declared.act(), units);
                }
                4 => {
                    let (low, units) = claimed[field];
                    let high = declared.act() - 1;
                    declared.holds.push(Hold { task: declared.lengths.len() - 1, device: field, low, high, units });
                }
                _ => {}
            }
        }
        declared
    }

    /// One action more of the last task: how many it has then.
    fn act(&mut self) -> u8 {
        let length = self.lengths.last_mut().unwrap();
        *length += 1;
        *length
    }

    fn has_units(&self) -> bool {
        self.holds.iter().any(|hold| hold.units > 1)
    }

    /// The units of a device that are held in a state.
    fn in_use(&self, device: usize, state: &[u8]) -> usize {
        self.holders(device, state).iter().sum()
    }

    fn is_overfull(&self, state: &[u8]) -> bool {
        self.lowest_overfull(state).is_some()
    }

    /// The lowest device of which more units are held in a state than it has.
    fn lowest_overfull(&self, state: &[u8]) -> Option<usize> {
        (0..self.capacities.len()).find(|&device| self.in_use(device, state) > self.capacities[device])
    }

    /// The units of a device that each of its holders has in a state, by the tasks' numbers.
    fn holders(&self, device: usize, state: &[u8]) -> Vec<usize> {
        let is_held = |hold: &&Hold| hold.device == device && (hold.low..=hold.high).contains(&state[hold.task]);
        self.holds.iter().filter(is_held).map(|hold| hold.units).collect()
    }

    /// The positions of the state of this rank.
    fn state_of(&self, rank: usize) -> Vec<u8> {
        let mut left = rank;
        let mut state: Vec<u8> = Vec::new();
        for &length in self.lengths.iter().rev() {
            let positions = usize::from(length) + 1;
            state.insert(0, (left % positions) as u8);
            left /= positions;
        }
        state
    }

    /// The states that one action of a task leads to.
    fn nexts(&self, state: &[u8]) -> Vec<Vec<u8>> {
        let next = |task: usize| {
            let mut next = state.to_vec();
            next[task] += 1;
            next
        };
        (0..state.len()).filter(|&task| state[task] < self.lengths[task]).map(next).collect()
    }

    /// How many choices of holds of a device, at most one a task and each of this many units or more, have so many units together, by their number: each task in turn
    /// adds a hold of its own to the choices of those before it, or none.
    fn choices(&self, device: usize, least: usize) -> Vec<u64> {
        let most: usize = TASKS * self.capacities[device];
        let mut choices = vec![0; most + 1];
        choices[0] = 1;
        for task in 0..self.lengths.len() {
            let before = choices.clone();
            for hold in self.holds.iter().filter(|hold| hold.task == task && hold.device == device && hold.units >= least) {
                for units in hold.units..=most {
                    choices[units] += before[units - hold.units];
                }
            }
        }
        choices
    }

    /// How many forbidden boxes a device has, without making any. A choice whose smallest hold is of m units makes a box exactly if its units are above the capacity, and
    /// by no more than m: those of m or more, but for those of more than m.
    fn boxes_of(&self, device: usize) -> u64 {
        let capacity = self.capacities[device];
        let just_above = |least: usize, smallest: usize| -> u64 { self.choices(device, least)[capacity + 1..=capacity + smallest].iter().sum() };
        (1..=capacity).map(|smallest| just_above(smallest, smallest) - just_above(smallest + 1, smallest)).sum()
    }
}

/// A forbidden box of a plan: its device, and each task's lowest and highest position.
struct Forbidden {
    device: usize,
    sides: Vec<(u8, u8)>,
}

impl Forbidden {
    fn holds_state(&self, state: &[u8]) -> bool {
        self.sides.iter().zip(state).all(|(&(low, high), position)| (low..=high).contains(position))
    }

    /// The tasks whose holds it is made of: no hold reaches down to a task's start, and the sides of all other tasks do.
    fn tasks(&self) -> Vec<usize> {
        (0..self.sides.len()).filter(|&task| self.sides[task].0 > 0).collect()
    }
}

fn forbidden_in(plan: &[u32], tasks: usize) -> Vec<Forbidden> {
    let side = |word: &u32| ((word >> 8) as u8, *word as u8);
    let of_head = |at: usize| Forbidden { device: (plan[at] & 15) as usize, sides: plan[at + 1..=at + tasks].iter().map(side).collect() };
    (0..plan.len()).filter(|&at| plan[at] >> 28 == 6).map(of_head).collect()
}

/// What isn't so of an accepted set, with the map and the plan that the library wrote for it.
pub fn fault(random: &mut Random, words: &[u32], map: &[u8], plan: &[u32]) -> Option<String> {
    let declared = Declared::new(words);
    let boxes = forbidden_in(plan, declared.lengths.len());
    if map[0] != 0 || declared.is_overfull(&[0; TASKS]) {
        return Some("the start isn't open".to_string());
    }
    for forbidden in &boxes {
        if let Some(fault) = fault_of_box(&declared, forbidden) {
            return Some(format!("a forbidden box of device {} with the sides {:?} {fault}", forbidden.device, forbidden.sides));
        }
    }
    for device in 0..declared.capacities.len() {
        let (made, wanted) = (boxes.iter().filter(|forbidden| forbidden.device == device).count() as u64, declared.boxes_of(device));
        if made != wanted {
            return Some(format!("device {device} has {made} forbidden boxes, and {wanted} choices of holds that just exceed its capacity"));
        }
    }
    for _ in 0..STATES {
        let state = any_state(random, &declared, &boxes);
        let lies_in_one = boxes.iter().any(|forbidden| forbidden.holds_state(&state));
        if lies_in_one != declared.is_overfull(&state) {
            return Some(format!(
                "{state:?} lies in a forbidden box: {lies_in_one}; some device has more units held there than its capacity: {}",
                !lies_in_one
            ));
        }
    }
    None
}

/// What isn't so of a box: it is made of holds of its device whose units exceed the capacity, and don't without any one of them; and if all are of one unit, of one hold more
/// than the capacity.
fn fault_of_box(declared: &Declared, forbidden: &Forbidden) -> Option<&'static str> {
    let capacity = declared.capacities[forbidden.device];
    let hold_of = |task: usize| {
        let is_it = |hold: &&Hold| hold.task == task && hold.device == forbidden.device && (hold.low, hold.high) == forbidden.sides[task];
        declared.holds.iter().find(is_it)
    };
    let holds: Vec<Option<&Hold>> = forbidden.tasks().into_iter().map(hold_of).collect();
    let Some(holds) = holds.into_iter().collect::<Option<Vec<&Hold>>>() else {
        return Some("has a side that is no hold of the device");
    };
    let units: usize = holds.iter().map(|hold| hold.units).sum();
    if units <= capacity {
        return Some("has holds that don't exceed the capacity");
    }
    if holds.iter().any(|hold| units - hold.units > capacity) {
        return Some("has a hold that can be left out");
    }
    let is_of_one_unit = holds.iter().all(|hold| hold.units == 1);
    (is_of_one_unit && holds.len() != capacity + 1).then_some("is of one-unit holds, and not of one more than the capacity")
}

/// Any state, half of the time one that lies in a forbidden box, if there is one, or next to it.
fn any_state(random: &mut Random, declared: &Declared, boxes: &[Forbidden]) -> Vec<u8> {
    let within = |random: &mut Random, low: u8, high: u8| random.between(low.into(), high.into()) as u8;
    if boxes.is_empty() || random.one_in(2) {
        return declared.lengths.iter().map(|&length| within(random, 0, length)).collect();
    }
    let forbidden = &boxes[random.below(boxes.len())];
    let mut state: Vec<u8> = forbidden.sides.iter().map(|&(low, high)| within(random, low, high)).collect();
    if random.one_in(2) {
        let task = random.below(state.len());
        state[task] = random.pick(&[forbidden.sides[task].0.saturating_sub(1), (forbidden.sides[task].1 + 1).min(declared.lengths[task])]);
    }
    state
}

// --- Sorts of lists ---

/// A list, and what came of it.
struct Lent<'a> {
    words: &'a [u32],
    worked: &'a Worked,
    /// If it is accepted.
    declared: Option<Declared>,
}

impl Lent<'_> {
    fn has_units(&self) -> bool {
        self.declared.as_ref().is_some_and(Declared::has_units)
    }

    /// Accepted, and some hold is like this, with the device's capacity beside it.
    fn has_hold(&self, is_like: impl Fn(&Hold, usize) -> bool) -> bool {
        self.declared.as_ref().is_some_and(|declared| declared.holds.iter().any(|hold| is_like(hold, declared.capacities[hold.device])))
    }

    /// Accepted with units, and the plan has a word of this kind.
    fn has_in_plan(&self, kind: u32) -> bool {
        self.has_units() && self.worked.plan.iter().any(|word| word >> 28 == kind)
    }

    /// Accepted with units, and some device has boxes of sets of tasks of which this is so: the numbers of tasks, and the capacity.
    fn has_boxes(&self, are_so: impl Fn(&[usize], usize) -> bool) -> bool {
        let Some(declared) = self.declared.as_ref().filter(|declared| declared.has_units()) else { return false };
        let boxes = forbidden_in(&self.worked.plan, declared.lengths.len());
        (0..declared.capacities.len()).any(|device| {
            let sizes: Vec<usize> = boxes.iter().filter(|forbidden| forbidden.device == device).map(|forbidden| forbidden.tasks().len()).collect();
            are_so(&sizes, declared.capacities[device])
        })
    }

    /// Accepted, and a step from some dead state would put a device over its capacity whose holders' units there, by the tasks' numbers, are like this: the capacity stands
    /// beside them.
    fn has_dead_state(&self, are_like: impl Fn(&[usize], usize) -> bool) -> bool {
        const MOST_LOOKED_AT: usize = 20;
        let Some(declared) = self.declared.as_ref().filter(|declared| declared.has_units()) else { return false };
        let dead = self.worked.plan.iter().filter(|word| matches!(*word >> 28, 9 | 10)).take(MOST_LOOKED_AT);
        let nexts = dead.flat_map(|word| declared.nexts(&declared.state_of((word & 0x0FFF_FFFF) as usize)));
        nexts.into_iter().any(|next| {
            let overfull = declared.lowest_overfull(&next);
            overfull.is_some_and(|device| are_like(&declared.holders(device, &next), declared.capacities[device]))
        })
    }

    /// Refused with this number at a word like this.
    fn is_refused(&self, number: u32, is_like: impl Fn(u32) -> bool) -> bool {
        matches!(self.worked.set, Err(Refusal { number: other, place }) if other == number && self.words.get(place as usize).is_some_and(|&word| is_like(word)))
    }

    /// Refused with 28 at a claim of what the task holds already.
    fn is_refused_while_held(&self) -> bool {
        let Err(Refusal { number: 28, place }) = self.worked.set else { return false };
        let (device, _) = taken_by(self.words[place as usize]);
        let names = |word: &&u32| matches!(**word >> 28, 2..=4) && (**word >> 28 == 2 || (**word & 0xFFFF) as usize == device);
        self.words[..place as usize].iter().rev().find(names).is_some_and(|word| word >> 28 == 3)
    }

    /// The capacity of the device that a claim names, if the list declares it.
    fn capacity(&self, claim: u32) -> Option<usize> {
        let (device, _) = taken_by(claim);
        let word = self.words.get(device).filter(|_| self.words[..=device].iter().all(|word| word >> 28 == 1))?;
        Some((word & 0x0FFF_FFFF) as usize)
    }

    fn exceeds_by(&self, claim: u32, more: usize) -> bool {
        claim >> 28 == 3 && self.capacity(claim).is_some_and(|capacity| taken_by(claim).1 == capacity + more)
    }

    fn exceeds(&self, claim: u32) -> bool {
        claim >> 28 == 3 && self.capacity(claim).is_some_and(|capacity| taken_by(claim).1 > capacity)
    }
}

/// How many holders exceed the capacity at least, if their units are these.
fn fewest(holders: &[usize], capacity: usize) -> usize {
    let mut falling = holders.to_vec();
    falling.sort_unstable_by(|one, other| other.cmp(one));
    (1..=falling.len()).find(|&count| falling[..count].iter().sum::<usize>() > capacity).unwrap_or(0)
}

/// Whether the first of these holders exceed the capacity, as few of them as any do.
fn are_the_first(holders: &[usize], capacity: usize) -> bool {
    holders[..fewest(holders, capacity)].iter().sum::<usize>() > capacity
}

type Sort = fn(&Lent) -> bool;
const SORTS: [(&str, Sort); 19] = [
    ("accepted with claims of several units", |list| list.has_units()),
    ("accepted with a claim of all units of a device", |list| list.has_hold(|hold, capacity| hold.units > 1 && hold.units == capacity)),
    ("accepted with a claim of eight units", |list| list.has_hold(|hold, _| hold.units == 8)),
    ("accepted with such claims and over eight devices", |list| {
        list.has_units() && list.declared.as_ref().is_some_and(|declared| declared.capacities.len() > 8)
    }),
    ("with a forbidden box of fewer tasks than one more than the capacity", |list| {
        list.has_boxes(|sizes, capacity| sizes.iter().any(|&size| size <= capacity))
    }),
    ("with forbidden boxes of two and of more tasks for one device", |list| {
        list.has_boxes(|sizes, _| sizes.contains(&2) && sizes.iter().any(|&size| size > 2))
    }),
    ("with forbidden boxes of five tasks or more", |list| list.has_boxes(|sizes, _| sizes.iter().any(|&size| size > 4))),
    ("with unsafe boxes and units", |list| list.has_in_plan(7)),
    ("with dead states and units", |list| list.has_in_plan(9)),
    ("with dead states that aren't reached and units", |list| list.has_in_plan(10)),
    ("with a dead state at which a task waits for fewer holders than there are", |list| {
        list.has_dead_state(|holders, capacity| fewest(holders, capacity) < holders.len())
    }),
    ("with a dead state at which a task waits for holders that aren't the first", |list| {
        list.has_dead_state(|holders, capacity| !are_the_first(holders, capacity))
    }),
    ("refused 28 for one unit too many", |list| list.is_refused(28, |word| list.exceeds_by(word, 1))),
    ("refused 28 for 256 units", |list| list.is_refused(28, |word| word >> 16 & 0xFF == 0xFF)),
    ("refused 28 for a device that the task holds", |list| list.is_refused_while_held()),
    ("refused 8 with units that the device has", |list| list.is_refused(8, |word| word >> 16 & 0xFF > 0)),
    ("refused 7 with units above the capacity", |list| list.is_refused(7, |word| list.exceeds(word))),
    ("refused 6 for bits 27 to 24 of a claim", |list| list.is_refused(6, |word| word >> 28 == 3 && word >> 24 & 15 > 0)),
    ("refused 6 for a release with units", |list| list.is_refused(6, |word| word >> 28 == 4 && word >> 16 & 0xFFF > 0)),
];

/// How many lists of each sort there were.
#[derive(Default)]
pub struct Units {
    sorts: [u64; SORTS.len()],
}

impl Units {
    pub fn count(&mut self, words: &[u32], worked: &Worked) {
        let list = Lent { words, worked, declared: worked.set.is_ok().then(|| Declared::new(words)) };
        for (count, (_, is_of_sort)) in self.sorts.iter_mut().zip(SORTS) {
            *count += u64::from(is_of_sort(&list));
        }
    }

    /// What there were too few of.
    pub fn missing(&self, least: u64) -> impl Iterator<Item = String> + '_ {
        SORTS.iter().zip(self.sorts).filter(move |(_, count)| *count < least).map(move |((sort, _), _)| format!("{least} lists {sort}"))
    }
}

impl Display for Units {
    fn fmt(&self, out: &mut Formatter) -> Written {
        let sorts: Vec<String> = SORTS.iter().zip(self.sorts).map(|((sort, _), count)| format!("{count} {sort}")).collect();
        write!(out, "lists with units: {}", sorts.join("; "))
    }
}
