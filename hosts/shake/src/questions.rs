//! Questions to plans: those that the library wrote, asked at every state, cut and with faults; plans that no set need have; and words that are hardly a plan.

use crate::checker::{Checker, Question};
use crate::plan_cases::{self, FAULTS};
use crate::random::Random;
use crate::reference::{Set, State, Worked};
use arbiter::sys;

/// How many words may be gone through for one plan: for every state and every cut, if they are no more; else for some of them.
const FEW_WORDS: usize = 10_000;
const MANY_WORDS: usize = 2_000_000;
const SOME: usize = 6;

/// How much was asked, and of what.
#[derive(Default)]
pub struct Asked {
    plans_at_every_state: usize,
    plans_cut_everywhere: usize,
    pub faults: [u64; FAULTS.len()],
}

impl std::fmt::Display for Asked {
    fn fmt(&self, out: &mut std::fmt::Formatter) -> std::fmt::Result {
        let faults: Vec<String> = FAULTS.iter().zip(self.faults).map(|((name, _), count)| format!("{count} {name}")).collect();
        write!(
            out,
            "{} plans asked at every state, {} cut at every length; plans with one fault: {}",
            self.plans_at_every_state,
            self.plans_cut_everywhere,
            faults.join(", ")
        )
    }
}

/// All questions to the plan of one accepted set. The library's own analysis was held to this one before, word for word.
pub fn of_set(checker: &mut Checker, random: &mut Random, worked: &Worked, set: &Set) {
    let (plan, tasks) = (&worked.plan[..], set.tasks.len());
    let most = if random.one_in(40) { MANY_WORDS } else { FEW_WORDS };
    at_states(checker, random, plan, worked, set, most);
    cuts(checker, random, plan, tasks, most / 4);
    if random.one_in(4) {
        faults(checker, random, plan, tasks);
        task_counts(checker, random, plan);
    }
}

/// Questions that no set is needed for.
pub fn of_no_set(checker: &mut Checker, random: &mut Random) {
    let tasks = random.between(1, 8);
    let least = random.below(3);
    let plan = plan_cases::any_plan(random, tasks, least);
    for _ in 0..SOME {
        let state = plan_cases::state_near(random, &plan, tasks);
        past_unread(checker, random, &plan, &state, tasks);
    }
    cuts(checker, random, &plan, tasks, FEW_WORDS / 4);
    // This one has a place for every fault.
    let whole = plan_cases::any_plan(random, tasks.max(2), 2);
    if random.one_in(4) {
        faults(checker, random, &whole, tasks.max(2));
    }
    for words in [plan_cases::noise(random), plan_cases::damaged(random, &plan), plan_cases::damaged(random, &whole)] {
        let tasks = if random.one_in(2) { tasks } else { random.between(1, 3) };
        let state = plan_cases::state_near(random, &words, tasks);
        checker.locate(random, Question { plan: &words, behind: &[], tasks }, &[state]);
    }
}

/// Every state of the grid, or some of them: the answer goes with the map's byte.
fn at_states(checker: &mut Checker, random: &mut Random, plan: &[u32], worked: &Worked, set: &Set, most: usize) {
    let tasks = set.tasks.len();
    let every = plan.len() * worked.map.len() <= most;
    let mut states = set.states();
    if every {
        checker.asked.plans_at_every_state += 1;
    } else {
        states = (0..SOME).map(|_| random.pick(&states)).collect();
    }
    // Past the task count anything may stand.
    let past = plan_cases::any_state(random);
    let asked: Vec<State> = states.iter().map(|state| std::array::from_fn(|task| if task < tasks { state[task] } else { past[task] })).collect();
    let question = Question { plan, behind: &[], tasks };
    let answers = checker.locate(random, question, &asked);
    for (state, answer) in states.iter().zip(answers) {
        let byte = worked.map[set.rank(state)];
        let wanted = match byte {
            1 => sys::IN_FORBIDDEN_BOX,
            2 | 3 => sys::IN_UNSAFE_BOX,
            _ => sys::IN_NO_BOX,
        };
        checker.must(question, state, answer.kind == wanted, || format!("the map has {byte} at this state, and the plan answers {answer:?}"));
    }
    let state = random.pick(&states);
    past_unread(checker, random, plan, &state, tasks);
    // Positions that no state of the set has.
    let state = plan_cases::any_state(random);
    past_unread(checker, random, plan, &state, tasks);
}

/// A state asked with two different tails gets one answer.
fn past_unread(checker: &mut Checker, random: &mut Random, plan: &[u32], state: &State, tasks: usize) {
    let other = plan_cases::other_past(random, state, tasks);
    let question = Question { plan, behind: &[], tasks };
    let answers = checker.locate(random, question, &[*state, other]);
    checker.must(question, state, answers[0] == answers[1], || format!("at {other:?} the answer is another: {answers:?}"));
}

/// A plan that is cut, at every length or at some, is refused with 23 at that length. Behind the cut stands the rest.
fn cuts(checker: &mut Checker, random: &mut Random, plan: &[u32], tasks: usize, most: usize) {
    let every = plan.len() * plan.len() <= most;
    let lengths: Vec<usize> = if every { (0..plan.len()).collect() } else { (0..SOME).map(|_| random.below(plan.len())).collect() };
    checker.asked.plans_cut_everywhere += usize::from(every);
    for length in lengths {
        let (cut, behind) = plan.split_at(length);
        let state = plan_cases::state_near(random, plan, tasks);
        refused_at(checker, random, Question { plan: cut, behind, tasks }, &[state], length);
    }
}

/// Each fault that the plan has a place for, at any such place.
fn faults(checker: &mut Checker, random: &mut Random, plan: &[u32], tasks: usize) {
    for (number, (_, fault)) in FAULTS.iter().enumerate() {
        let mut words = plan.to_vec();
        if let Some(place) = fault(random, &mut words, tasks) {
            checker.asked.faults[number] += 1;
            let states = [plan_cases::state_near(random, plan, tasks), plan_cases::any_state(random)];
            refused_at(checker, random, Question { plan: &words, behind: &[], tasks }, &states, place);
        }
    }
}

fn refused_at(checker: &mut Checker, random: &mut Random, question: Question, states: &[State], place: usize) {
    let wanted = sys::Answer { kind: sys::REFUSED, refusal: u32::from(sys::OUTSIDE_LAYOUT), value: place as u64 };
    let answers = checker.locate(random, question, states);
    for (state, answer) in states.iter().zip(answers) {
        checker.must(question, state, answer == wanted, || format!("the answer is {answer:?}, and should be 23 at {place}"));
    }
}

/// Every task count from 0 to 10, and larger ones. Those outside 1 to 8 are 22 whatever the words are.
fn task_counts(checker: &mut Checker, random: &mut Random, plan: &[u32]) {
    let state = plan_cases::any_state(random);
    for tasks in 1..=8 {
        checker.locate(random, Question { plan, behind: &[], tasks }, &[state]);
    }
    let wanted = sys::Answer { kind: sys::REFUSED, refusal: u32::from(sys::BAD_TASK_COUNT), value: 0 };
    let noise = plan_cases::noise(random);
    for tasks in plan_cases::bad_task_counts(random) {
        for words in [plan, &noise, &[]] {
            let question = Question { plan: words, behind: &[], tasks };
            let answers = checker.locate(random, question, &[state]);
            checker.must(question, &state, answers[0] == wanted, || format!("the answer is {:?}, and should be 22 at 0", answers[0]));
        }
    }
}
