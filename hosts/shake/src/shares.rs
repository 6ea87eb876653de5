//! Fair shares: what docs/SCOPE.md says of a bid's settings and counts, held to the record that the library left, apart from the reference; and which sorts of calls
//! there were.

use crate::reference::{Answer, Record, Refusal, Set, Settings, TASKS};
use arbiter::sys;
use std::fmt::{Display, Formatter, Result as Written};

/// A bid on an accepted set, and what the library answered and left.
pub struct Bid<'a> {
    pub set: &'a Set,
    pub map: &'a [u8],
    pub before: Record,
    pub after: Record,
    pub task: usize,
    pub settings: Settings,
    pub kind: u32,
    pub refusal: u32,
}

impl Bid<'_> {
    /// Answered by the map: then the record fits and the map has room, and others can be asked for.
    fn is_answered(&self, kinds: &[u32]) -> bool {
        kinds.contains(&self.kind)
    }

    fn is_refused(&self, number: u8) -> bool {
        self.refusal == u32::from(number)
    }

    fn has_share_left(&self) -> bool {
        self.settings.leave_share(&self.before, self.task)
    }

    /// Whether some other task, with share left or without, gets this answer by the map.
    fn another(&self, with_share: bool, answer: impl Fn(Answer) -> bool) -> bool {
        let others = (0..self.set.tasks.len()).filter(|&other| other != self.task && self.settings.leave_share(&self.before, other) == with_share);
        others.map(|other| self.set.answer_by_map(self.map, &self.before.positions, other)).any(answer)
    }

    fn another_goes(&self, with_share: bool) -> bool {
        self.another(with_share, |answer| answer == Answer::Granted)
    }

    /// Whether the record's state is one of the set and open in the map, so that 16 comes for counts alone.
    fn is_open(&self) -> bool {
        fits(self.set, &self.before) && self.map.get(self.set.rank(&self.before.positions)) == Some(&0)
    }

    /// What isn't so of the record afterwards.
    fn fault(&self) -> Option<&'static str> {
        if self.kind != sys::GRANTED {
            return (self.before != self.after).then_some("it changes the record without a grant");
        }
        let grants = self.before.window_grants() + 1;
        if self.before.window_grants() >= self.settings.window || grants % self.settings.window != self.after.window_grants() {
            return Some("the counts afterwards aren't one more than before, nor 0 with the window's last grant");
        }
        let kept = |task: usize| self.after.counts[task] == self.before.counts[task] + u8::from(task == self.task);
        (grants < self.settings.window && !(0..TASKS).all(kept)).then_some("a grant counts for another task than its own")
    }
}

/// Whether the set has the record's positions.
fn fits(set: &Set, record: &Record) -> bool {
    record.positions.iter().zip(set.end()).all(|(position, last)| *position <= last)
}

fn counts_absent_task(set: &Set, record: &Record) -> bool {
    record.counts[set.tasks.len()..].iter().any(|&count| count > 0)
}

/// What a bid may be like.
type Sort = fn(&Bid) -> bool;
const SORTS: [(&str, Sort); 17] = [
    ("spent", |bid| bid.is_answered(&[sys::SHARE_SPENT])),
    ("spent, others without share could go on too", |bid| bid.is_answered(&[sys::SHARE_SPENT]) && bid.another_goes(false)),
    ("granted with its share spent, nobody else could go on", |bid| {
        bid.is_answered(&[sys::GRANTED]) && !bid.has_share_left() && !bid.another_goes(true) && !bid.another_goes(false)
    }),
    ("granted with its share spent, others had spent theirs", |bid| bid.is_answered(&[sys::GRANTED]) && !bid.has_share_left() && bid.another_goes(false)),
    ("granted with its share spent, a byte over 3 before another", |bid| {
        bid.is_answered(&[sys::GRANTED]) && !bid.has_share_left() && bid.another(true, |answer| matches!(answer, Answer::Refused(Refusal { number: 18, .. })))
    }),
    ("granted the last of its share while another could go on", |bid| {
        bid.is_answered(&[sys::GRANTED]) && u32::from(bid.before.counts[bid.task]) + 1 == bid.settings.share && bid.another_goes(true)
    }),
    ("granted the window's last", |bid| bid.is_answered(&[sys::GRANTED]) && bid.before.window_grants() + 1 == bid.settings.window),
    ("granted the window's last but one", |bid| bid.is_answered(&[sys::GRANTED]) && bid.before.window_grants() + 2 == bid.settings.window),
    ("granted the last of a window over 250", |bid| {
        bid.is_answered(&[sys::GRANTED]) && bid.settings.window > 250 && bid.before.window_grants() + 1 == bid.settings.window
    }),
    ("busy or held with its share spent while another could go on", |bid| {
        bid.is_answered(&[sys::BUSY, sys::HELD]) && !bid.has_share_left() && bid.another_goes(true)
    }),
    ("finished with its share spent while another could go on", |bid| bid.is_answered(&[sys::FINISHED]) && !bid.has_share_left() && bid.another_goes(true)),
    ("refused 16 for counts that are the window", |bid| {
        bid.is_refused(sys::BAD_RECORD) && bid.is_open() && !counts_absent_task(bid.set, &bid.before) && bid.before.window_grants() == bid.settings.window
    }),
    ("refused 16 for counts over 255", |bid| bid.is_refused(sys::BAD_RECORD) && bid.is_open() && bid.before.window_grants() > 255),
    ("refused 16 for a count of an absent task alone", |bid| {
        bid.is_refused(sys::BAD_RECORD) && bid.is_open() && counts_absent_task(bid.set, &bid.before) && bid.before.window_grants() < bid.settings.window
    }),
    ("refused 26 before 16", |bid| bid.is_refused(sys::BAD_SETTING) && (!bid.is_open() || counts_absent_task(bid.set, &bid.before))),
    ("refused 26, allowed in 8 bits", |bid| bid.is_refused(sys::BAD_SETTING) && bid.settings.share as u8 > 0 && bid.settings.window as u8 > 0),
    ("refused 26, allowed in 16 bits", |bid| {
        let cut = |setting: u32| (1..=255).contains(&(setting as u16));
        bid.is_refused(sys::BAD_SETTING) && cut(bid.settings.share) && cut(bid.settings.window)
    }),
];

/// How many calls of each sort there were.
#[derive(Default)]
pub struct Shares {
    sorts: [u64; SORTS.len()],
    /// Agains that cleared counts; agains and routes that were refused for a count of an absent task alone; routes whose counts reach every window.
    cleared: u64,
    agains_absent: u64,
    routes_absent: u64,
    routes_over: u64,
    /// Lists of rounds that brought every task home, and those of them in which a share was spent.
    pub rounds: u64,
    pub rounds_spent: u64,
    /// Bids in service to release something: granted, and not yet.
    pub releases: u64,
    pub releases_spent: u64,
}

impl Shares {
    /// What isn't so of the bid.
    pub fn count_bid(&mut self, bid: &Bid) -> Option<&'static str> {
        for (count, (_, is_of_sort)) in self.sorts.iter_mut().zip(SORTS) {
            *count += u64::from(is_of_sort(bid));
        }
        bid.fault()
    }

    /// How many bids were answered Share spent.
    pub fn spent(&self) -> u64 {
        self.sorts[0]
    }

    pub fn count_again(&mut self, set: &Set, before: &Record, answer: sys::Answer) {
        self.cleared += u64::from(answer.kind == sys::RESTARTED && before.window_grants() > 0);
        let refused = answer.refusal == u32::from(sys::BAD_RECORD);
        self.agains_absent += u64::from(refused && fits(set, before) && counts_absent_task(set, before));
    }

    pub fn count_route(&mut self, set: &Set, before: &Record, answer: sys::Answer) {
        self.routes_over += u64::from(answer.kind == sys::ROUTED && before.window_grants() > 255);
        let refused = answer.refusal == u32::from(sys::BAD_RECORD);
        self.routes_absent += u64::from(refused && fits(set, before) && counts_absent_task(set, before));
    }

    fn others(&self) -> [(&'static str, u64); 8] {
        [
            ("agains that cleared counts", self.cleared),
            ("agains with a count of an absent task", self.agains_absent),
            ("routes with a count of an absent task", self.routes_absent),
            ("routes with counts over 255", self.routes_over),
            ("lists of rounds home", self.rounds),
            ("of them with a share spent", self.rounds_spent),
            ("releases granted", self.releases),
            ("releases that had to wait for their share", self.releases_spent),
        ]
    }

    /// Which sorts never came.
    pub fn missing(&self) -> impl Iterator<Item = String> + '_ {
        let bids = SORTS.iter().zip(self.sorts).map(|((sort, _), count)| (*sort, count));
        bids.chain(self.others()).filter(|(_, count)| *count == 0).map(|(sort, _)| format!("shares: {sort}"))
    }
}

impl Display for Shares {
    fn fmt(&self, out: &mut Formatter) -> Written {
        let sorts: Vec<String> = SORTS.iter().zip(self.sorts).map(|((sort, _), count)| format!("{count} {sort}")).collect();
        let others: Vec<String> = self.others().iter().map(|(sort, count)| format!("{count} {sort}")).collect();
        write!(out, "shares: bids {}; {}", sorts.join("; "), others.join(", "))
    }
}
