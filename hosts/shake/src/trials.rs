//! Trials: what docs/SCOPE.md says of a trial's rows, held to what the library answered, apart from the reference; which sorts of trials there were; and the calls that
//! are made.

use crate::checker::{laid_out_trial, Checker};
use crate::random::Random;
use crate::reference::{Set, Worked, LONGEST_ORDER};
use crate::trial_cases::{self, Lent};
use arbiter::sys;
use std::fmt::{Display, Formatter, Result as Written};

/// A trial of an accepted set, and what the library answered.
pub struct Made<'a> {
    pub set: &'a Set,
    pub worked: &'a Worked,
    pub lent: &'a Lent,
    pub trial: sys::Trial,
}

fn bids_in(row: &sys::Tally) -> u64 {
    [row.granted, row.busy, row.held, row.share_spent].map(u64::from).iter().sum()
}

impl Made<'_> {
    fn is_tried(&self) -> bool {
        self.trial.answer.kind == sys::TRIED
    }

    fn is_refused(&self, number: u8) -> bool {
        self.trial.answer.refusal == u32::from(number)
    }

    fn bids(&self) -> u64 {
        self.trial.answer.value
    }

    fn most_bids(&self) -> u64 {
        self.length() * u64::from(self.lent.rounds)
    }

    fn length(&self) -> u64 {
        self.lent.order.len() as u64
    }

    /// Whether so many grants bring every task to its end.
    fn are_finished(&self, granted: impl Fn(usize) -> usize) -> bool {
        (0..self.set.tasks.len()).all(|task| granted(task) == self.set.length(task))
    }

    fn is_home(&self) -> bool {
        self.is_tried() && self.are_finished(|task| self.trial.rows[task].granted as usize)
    }

    /// Tried, and some row has this in it.
    fn has(&self, tally: impl Fn(&sys::Tally) -> u32) -> bool {
        self.is_tried() && self.trial.rows.iter().any(|row| tally(row) > 0)
    }

    /// No bid is to be made.
    fn bids_nothing(&self) -> bool {
        self.lent.rounds == 0 || self.set.actions() == 0
    }

    fn starts_open(&self) -> bool {
        self.lent.map.first() == Some(&0)
    }

    /// Refused with 27 at a place of the order that one round wouldn't come to, since every task is finished before it.
    fn is_refused_behind_the_end(&self) -> bool {
        let order = self.lent.order.get(..self.bids() as usize).unwrap_or(&[]);
        if !self.is_refused(sys::BAD_ORDER) || order.is_empty() || order.len() == LONGEST_ORDER {
            return false;
        }
        let before = self.worked.trial(&self.lent.map, order, 1, self.lent.settings);
        self.are_finished(|task| before.rows[task].granted as usize)
    }

    /// Whether the order is wrong, whatever else is.
    fn has_wrong_order(&self) -> bool {
        let order = &self.lent.order;
        order.is_empty() || order.len() > LONGEST_ORDER || order.iter().any(|&task| task as usize >= self.set.tasks.len())
    }

    /// How often a task stands among the bids that were made.
    fn bids_of(&self, task: usize) -> u64 {
        let times = |order: &[u8]| order.iter().filter(|&&other| other as usize == task).count() as u64;
        let (rounds, rest) = (self.bids() / self.length(), self.bids() % self.length());
        rounds * times(&self.lent.order) + times(&self.lent.order[..rest as usize])
    }

    /// What isn't so of the answer, the rows and the total.
    fn fault(&self) -> Option<&'static str> {
        let (rows, finished) = (&self.trial.rows, self.trial.finished);
        if !self.is_tried() {
            let is_empty = finished == 0 && rows.iter().all(|row| bids_in(row) == 0);
            let is_own = self.lent.map.starts_with(&self.worked.map);
            if is_own && (self.is_refused(sys::BAD_RECORD) || self.is_refused(sys::BAD_MAP_BYTE)) {
                return Some("a bid is refused on the set's own map");
            }
            return (!is_empty).then_some("a refused trial has rows, or a number of bids answered Finished");
        }
        if rows.iter().map(bids_in).sum::<u64>() + finished != self.bids() {
            return Some("the tallies and the bids answered Finished aren't together the bids made");
        }
        if (0..rows.len()).any(|task| bids_in(&rows[task]) > self.bids_of(task)) {
            return Some("a row has more bids than its task has made");
        }
        if self.bids() > self.most_bids() || (self.bids() < self.most_bids() && !self.is_home()) {
            return Some("it doesn't make all bids, and not every task is finished; or it makes more");
        }
        // Where every task is finished the last bid was the grant that brought the last of them there.
        let last_task = (self.bids().wrapping_sub(1) % self.length().max(1)) as usize;
        if self.is_home() && self.bids() > 0 && rows[self.lent.order[last_task] as usize].granted == 0 {
            return Some("every task is finished, and the last bid is of a task that was granted nothing");
        }
        None
    }
}

/// What a trial may be like.
type Sort = fn(&Made) -> bool;
const SORTS: [(&str, Sort); 30] = [
    ("without rounds", |made| made.is_tried() && made.lent.rounds == 0),
    ("of a set without actions", |made| made.is_tried() && made.lent.rounds > 0 && made.set.actions() == 0),
    ("without rounds on a map whose start isn't open", |made| made.is_tried() && made.lent.rounds == 0 && !made.starts_open()),
    ("of a set without actions on such a map", |made| made.is_tried() && made.set.actions() == 0 && !made.starts_open()),
    ("stopped within a round", |made| made.is_home() && made.bids() % made.length() > 0),
    ("stopped within the first round", |made| made.is_home() && made.bids() > 0 && made.bids() < made.length()),
    ("stopped between two rounds", |made| made.is_home() && made.bids() > 0 && made.bids() < made.most_bids() && made.bids() % made.length() == 0),
    ("home with the last bid", |made| made.is_home() && made.bids() > 0 && made.bids() == made.most_bids()),
    ("not home", |made| made.is_tried() && made.bids() > 0 && !made.is_home()),
    ("with bids answered Finished", |made| made.trial.finished > 0),
    ("with busy bids", |made| made.has(|row| row.busy)),
    ("with held bids", |made| made.has(|row| row.held)),
    ("with shares that are spent", |made| made.has(|row| row.share_spent)),
    ("with all of these", |made| made.trial.finished > 0 && made.has(|row| row.busy) && made.has(|row| row.held) && made.has(|row| row.share_spent)),
    ("with a row of the eighth task", |made| bids_in(&made.trial.rows[7]) > 0),
    ("of an order of 255", |made| made.is_tried() && made.lent.order.len() == LONGEST_ORDER && made.bids() > 0),
    ("of over 256 rounds", |made| made.is_tried() && made.bids() > 256 * made.length()),
    ("refused 26 where no bid is to be made", |made| made.is_refused(sys::BAD_SETTING) && made.bids_nothing()),
    ("refused 26 with a wrong order too", |made| made.is_refused(sys::BAD_SETTING) && made.has_wrong_order()),
    ("refused 27 for an empty order", |made| made.is_refused(sys::BAD_ORDER) && made.lent.order.is_empty()),
    ("refused 27 for an order of 256", |made| {
        made.is_refused(sys::BAD_ORDER) && made.lent.order.len() == LONGEST_ORDER + 1 && made.bids() == LONGEST_ORDER as u64
    }),
    ("refused 27 for a longer one", |made| made.is_refused(sys::BAD_ORDER) && made.lent.order.len() > LONGEST_ORDER + 1 && made.bids() == LONGEST_ORDER as u64),
    ("refused 27 for an absent task at 254", |made| made.is_refused(sys::BAD_ORDER) && made.bids() + 1 == LONGEST_ORDER as u64),
    ("refused 27 for an absent task in one that is too long", |made| {
        made.is_refused(sys::BAD_ORDER) && made.lent.order.len() > LONGEST_ORDER && made.bids() < LONGEST_ORDER as u64
    }),
    ("refused 27 for an absent task behind the end", |made| made.is_refused_behind_the_end()),
    ("refused 27 where no bid is to be made", |made| made.is_refused(sys::BAD_ORDER) && made.bids_nothing()),
    ("refused 27 before 16", |made| made.is_refused(sys::BAD_ORDER) && !made.bids_nothing() && !made.starts_open()),
    ("refused 16", |made| made.is_refused(sys::BAD_RECORD)),
    ("refused 18 at the first bid", |made| made.is_refused(sys::BAD_MAP_BYTE) && is_next_to_start(made)),
    ("refused 18 at a later one", |made| made.is_refused(sys::BAD_MAP_BYTE) && !is_next_to_start(made)),
];

/// Whether the place is the rank of a state that one step leads to from the start.
fn is_next_to_start(made: &Made) -> bool {
    let nexts = (0..made.set.tasks.len()).filter_map(|task| made.set.next(&[0; 8], task));
    nexts.map(|next| made.set.rank(&next) as u64).any(|rank| rank == made.bids())
}

/// How many trials of each sort there were.
#[derive(Default)]
pub struct Trials {
    sorts: [u64; SORTS.len()],
}

impl Trials {
    /// What isn't so of the trial.
    pub fn count(&mut self, made: &Made) -> Option<&'static str> {
        for (count, (_, is_of_sort)) in self.sorts.iter_mut().zip(SORTS) {
            *count += u64::from(is_of_sort(made));
        }
        made.fault()
    }

    /// Which sorts never came.
    pub fn missing(&self) -> impl Iterator<Item = String> + '_ {
        SORTS.iter().zip(self.sorts).filter(|(_, count)| *count == 0).map(|((sort, _), _)| format!("trials: {sort}"))
    }
}

impl Display for Trials {
    fn fmt(&self, out: &mut Formatter) -> Written {
        let sorts: Vec<String> = SORTS.iter().zip(self.sorts).map(|((sort, _), count)| format!("{count} {sort}")).collect();
        write!(out, "trials: {}", sorts.join("; "))
    }
}

/// All trials of one accepted set.
pub fn of_set(checker: &mut Checker, random: &mut Random, words: &[u32], worked: &Worked, set: &Set) {
    for _ in 0..2 {
        let lent = trial_cases::any(random, worked, set);
        checker.trial(random, words, worked, &lent);
    }
}

/// A trial of a list that is refused.
pub fn of_no_set(checker: &mut Checker, random: &mut Random, words: &[u32], worked: &Worked) {
    let lent = trial_cases::of_no_set(random);
    checker.trial(random, words, worked, &lent);
}

/// One trial by itself: how many bids it makes, or how library and reference differ.
pub fn long(words: &[u32], lent: &Lent) -> Result<u64, String> {
    let Lent { map, order, rounds, settings } = lent;
    let library = unsafe {
        sys::arbiter_trial(words.as_ptr(), words.len(), map.as_ptr(), map.len(), order.as_ptr(), order.len(), *rounds, settings.share, settings.window)
    };
    let reference = Worked::new(words).trial(map, order, *rounds, *settings);
    if library != laid_out_trial(reference) {
        return Err(format!("the library answers {library:?}, the reference {reference:?}"));
    }
    Ok(library.answer.value)
}
