//! docs/SCOPE.md, "Stored plans", in plain Rust, to hold arbiter_locate to: the plan is read into a list of boxes, section by section, and the list is looked through.
//! It belongs to `reference`, and shares nothing with the library either.

use crate::reference::{Answer, Refusal, State};

/// A box of a plan, with the index of its first word.
struct PlanBox {
    index: u64,
    kind: u32,
    /// The lowest and the highest position of each task.
    sides: Vec<(u8, u8)>,
}

/// A plan that is read.
pub struct Stored {
    boxes: Vec<PlanBox>,
}

fn kind(word: u32) -> u32 {
    word >> 28
}

fn field(word: u32) -> usize {
    (word & 0x0FFF_FFFF) as usize
}

fn outside(place: usize) -> Refusal {
    Refusal { number: 23, place: place as u64 }
}

/// The sides that stand at this index, one for each task; or the index of the first word that isn't one of them.
fn sides(plan: &[u32], index: usize, tasks: usize) -> Result<Vec<(u8, u8)>, usize> {
    let mut sides = Vec::new();
    for task in 0..tasks {
        let at = index + task;
        let &word = plan.get(at).ok_or(at)?;
        let (lowest, highest) = ((word >> 8) as u8, word as u8);
        // A byte each for task, lowest and highest; so the four bits above them are 0.
        if kind(word) != 8 || field(word) >> 16 != task || lowest > highest {
            return Err(at);
        }
        sides.push((lowest, highest));
    }
    Ok(sides)
}

/// The plan that the words are, for so many tasks; or 22, or 23 at the first word outside the layout.
pub fn read(plan: &[u32], tasks: usize) -> Result<Stored, Refusal> {
    if !(1..=8).contains(&tasks) {
        return Err(Refusal { number: 22, place: 0 });
    }
    let is = |at: usize, wanted: u32| plan.get(at).is_some_and(|&word| kind(word) == wanted);
    let mut at = 0;
    let mut boxes = Vec::new();
    for (section, fields) in [(6, 16), (7, 1)] {
        while is(at, section) {
            if field(plan[at]) >= fields {
                return Err(outside(at));
            }
            boxes.push(PlanBox { index: at as u64, kind: section, sides: sides(plan, at + 1, tasks).map_err(outside)? });
            at += 1 + tasks;
        }
    }
    for section in [9, 10] {
        let mut last = None;
        while is(at, section) {
            let rank = field(plan[at]);
            if last.is_some_and(|last| rank <= last) {
                return Err(outside(at));
            }
            last = Some(rank);
            at += 1;
        }
    }
    if !is(at, 5) || field(plan[at]) != at {
        return Err(outside(at));
    }
    match plan.len() - at {
        1 => Ok(Stored { boxes }),
        _ => Err(outside(at + 1)),
    }
}

impl PlanBox {
    fn holds(&self, state: &State) -> bool {
        self.sides.iter().zip(state).all(|(&(lowest, highest), &position)| lowest <= position && position <= highest)
    }
}

impl Stored {
    /// The first forbidden box that holds the state; if there is none, the first unsafe one.
    fn locate(&self, state: &State) -> Answer {
        let first = |kind: u32| self.boxes.iter().find(|plan_box| plan_box.kind == kind && plan_box.holds(state));
        match (first(6), first(7)) {
            (Some(plan_box), _) => Answer::InForbiddenBox(plan_box.index),
            (None, Some(plan_box)) => Answer::InUnsafeBox(plan_box.index),
            (None, None) => Answer::InNoBox,
        }
    }
}

/// What a question to a plan is answered.
pub fn locate(stored: &Result<Stored, Refusal>, state: &State) -> Answer {
    match stored {
        Err(refusal) => Answer::Refused(*refusal),
        Ok(stored) => stored.locate(state),
    }
}
