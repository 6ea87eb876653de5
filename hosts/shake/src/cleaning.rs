//! Sets with devices that no task claims: every call but arbiter_clean refuses them, and that one is held to what cleaning is for.

use crate::cases;
use crate::checker::Checker;
use crate::package;
use crate::random::Random;
use crate::reference::{self, Action, Refusal, Set, Worked};
use std::fmt::{Display, Formatter, Result as Written};

/// A list that the cleaner was lent.
struct Lent<'a> {
    /// By the former rules.
    set: &'a Result<Set, Refusal>,
    /// The devices at its start that no word in it claims.
    unclaimed: Vec<usize>,
    devices: usize,
}

impl Lent<'_> {
    fn new<'a>(words: &[u32], worked: &'a Worked) -> Lent<'a> {
        let devices = words.iter().take_while(|&&word| word >> 28 == 1).count();
        // Whatever its units are.
        let claims = |word: &u32, device: usize| word & 0xF000_FFFF == 0x3000_0000 | device as u32;
        let unclaimed = (0..devices).filter(|&device| !words.iter().any(|word| claims(word, device))).collect();
        Lent { set: &worked.former, unclaimed, devices }
    }

    fn is_old(&self) -> bool {
        self.set.is_ok() && !self.unclaimed.is_empty()
    }

    fn is_refused(&self, number: u32) -> bool {
        !self.unclaimed.is_empty() && matches!(self.set, Err(refusal) if refusal.number == number)
    }

    /// Not counting those that stand at the start or at the end in a row.
    fn has_between(&self) -> bool {
        let claimed: Vec<usize> = (0..self.devices).filter(|device| !self.unclaimed.contains(device)).collect();
        self.unclaimed.iter().any(|&device| claimed.first().is_some_and(|&first| first < device) && claimed.last().is_some_and(|&last| device < last))
    }

    fn has_units(&self) -> bool {
        let takes_several = |action: &Action| matches!(action, Action::Claim { units, .. } if *units > 1);
        self.set.as_ref().is_ok_and(|set| set.tasks.iter().flatten().any(takes_several))
    }

    fn has_claim_in_last_task_alone(&self) -> bool {
        self.set.as_ref().is_ok_and(|set| {
            let before_last = Set { capacities: set.capacities.clone(), tasks: set.tasks[..set.tasks.len() - 1].to_vec() };
            set.claimed().iter().any(|&device| !before_last.is_claimed(device))
        })
    }
}

/// What a list may be like. Where nothing else is said, the former rules accept it.
type Sort = fn(&Lent) -> bool;
const SORTS: [(&str, Sort); 14] = [
    ("without any device that no task claims", |list| list.set.is_ok() && list.unclaimed.is_empty()),
    ("with device 0 unclaimed", |list| list.is_old() && list.unclaimed[0] == 0),
    ("with the last device unclaimed", |list| list.is_old() && list.unclaimed.contains(&(list.devices - 1))),
    ("with one unclaimed between others", |list| list.is_old() && list.has_between()),
    ("with several unclaimed", |list| list.is_old() && list.unclaimed.len() > 1),
    ("with every device unclaimed", |list| list.is_old() && list.unclaimed.len() == list.devices),
    ("with unclaimed ones among 16", |list| list.is_old() && list.devices == 16),
    ("with one unclaimed of 16", |list| list.is_old() && list.devices == 16 && list.unclaimed.len() == 1),
    ("with a device that the last task alone claims", |list| list.has_claim_in_last_task_alone()),
    ("with claims of several units and none unclaimed", |list| list.has_units() && list.unclaimed.is_empty()),
    ("with claims of several units and one unclaimed", |list| list.has_units() && list.is_old()),
    ("with one unclaimed and refused with 28", |list| list.is_refused(28)),
    ("with one unclaimed and refused with 12", |list| list.is_refused(12)),
    ("with one unclaimed and refused with 11", |list| list.is_refused(11)),
];

/// How many lists of each sort there were, and how many sets had devices put in and taken out again.
#[derive(Default)]
pub struct Cleanings {
    sorts: [u64; SORTS.len()],
    and_back: u64,
}

impl Cleanings {
    fn count(&mut self, list: &Lent) {
        for (count, (_, is_of_sort)) in self.sorts.iter_mut().zip(SORTS) {
            *count += u64::from(is_of_sort(list));
        }
    }

    /// What there were too few of.
    pub fn missing(&self, least: u64) -> impl Iterator<Item = String> + '_ {
        let lists = SORTS.iter().zip(self.sorts).map(|((sort, _), count)| (format!("lists {sort}"), count));
        let sets = [("sets with devices put in and taken out again".to_string(), self.and_back)];
        lists.chain(sets).filter(move |(_, count)| *count < least).map(move |(what, _)| format!("{least} {what}"))
    }
}

impl Display for Cleanings {
    fn fmt(&self, out: &mut Formatter) -> Written {
        let sorts: Vec<String> = SORTS.iter().zip(self.sorts).map(|((sort, _), count)| format!("{count} {sort}")).collect();
        write!(out, "lists to clean: {}; {} sets had devices put in and taken out again", sorts.join(", "), self.and_back)
    }
}

/// The cleaner on any list: slices that fit, that are one word short, and of any length.
pub fn of_list(checker: &mut Checker, random: &mut Random, words: &[u32], worked: &Worked) {
    checker.cleanings.count(&Lent::new(words, worked));
    let needed = worked.clean.len();
    let room = if worked.former.is_ok() { cases::length(random, needed) } else { random.below(40) };
    checker.clean(random, words, worked, room);
    // As long as the set is always long enough.
    checker.clean(random, words, worked, words.len());
    if let Ok(set) = &worked.former {
        checker.clean(random, words, worked, needed - 1);
        let cleaned = checker.clean(random, words, worked, needed);
        match &worked.set {
            Ok(_) => checker.cleaned(words, cleaned == words, || "a set without such a device doesn't come back word for word".to_string()),
            Err(_) => of_old_set(checker, random, words, set, &cleaned),
        }
    }
    if random.one_in(4) {
        checker.package(words, package::check_cleaning(random, words, worked));
    }
}

/// A set that the former rules alone accept, beside the one that it is cleaned to.
fn of_old_set(checker: &mut Checker, random: &mut Random, words: &[u32], set: &Set, cleaned: &[u32]) {
    let new = Worked::new(cleaned);
    checker.cleaned(words, new.set.is_ok(), || format!("cleaned, it is refused: {:?}", new.set));
    checker.read(random, cleaned, &new);
    checker.analyse(random, cleaned, &new, new.map.len(), new.plan.len());
    let twice = checker.clean(random, cleaned, &new, cleaned.len());
    checker.cleaned(words, twice == cleaned, || "cleaned twice, it is another than cleaned once".to_string());

    let (map, plan, parts) = reference::analysed(set);
    checker.cleaned(words, map == new.map, || "cleaned, it has another map".to_string());
    checker.cleaned(words, parts == new.parts, || "cleaned, it has other parts per thousand".to_string());
    let kept = set.claimed();
    let renamed = |&word: &u32| match (word >> 28, (word & 0x0FFF_FFFF) as usize) {
        (6, device) => 0x6000_0000 | kept.iter().position(|&other| other == device).unwrap() as u32,
        _ => word,
    };
    let same = plan.iter().map(renamed).eq(new.plan.iter().copied());
    checker.cleaned(words, same, || "cleaned, it has another plan, and not only by its devices' numbers".to_string());
}

/// An accepted set with devices put in: the list is refused at the lowest of them, and cleaned it is the set again.
pub fn and_back(checker: &mut Checker, random: &mut Random, words: &[u32]) -> Option<(Vec<u32>, Worked)> {
    let places = cases::unclaimed_places(random, words)?;
    let old = cases::with_unclaimed(random, words, &places);
    let worked = Worked::new(&old);
    let refusal = Refusal { number: 24, place: places[0] as u64 };
    checker.cleaned(&old, matches!(worked.set, Err(other) if other == refusal), || format!("it isn't refused with {refusal:?}, but {:?}", worked.set));
    let cleaned = checker.clean(random, &old, &worked, words.len());
    checker.cleaned(&old, cleaned == words, || format!("it isn't cleaned to the set that devices were put into at {places:?}"));
    checker.cleanings.and_back += 1;
    Some((old, worked))
}
