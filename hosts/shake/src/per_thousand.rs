//! How much of the grid is unsafe: what docs/SCOPE.md says of an analysis' quotient and remainder, held to the map that the library itself wrote, apart from the
//! reference; and which sorts of analyses there were.

use arbiter::sys;
use std::fmt::{Display, Formatter, Result as Written};

/// An analysis of the library, and what stands in its map slice afterwards: the grid, if the slice has room for it, and the bytes beyond.
pub struct Made<'a> {
    pub analysis: sys::Analysis,
    pub grid: &'a [u8],
    pub beyond: &'a [u8],
}

impl Made<'_> {
    fn is_planned(&self) -> bool {
        self.analysis.answer.kind == sys::PLANNED
    }

    fn count(&self, bytes: &[u8]) -> u64 {
        self.grid.iter().filter(|byte| bytes.contains(byte)).count() as u64
    }

    fn unsafe_states(&self) -> u64 {
        self.count(&[2, 3])
    }

    fn permitted(&self) -> u64 {
        self.count(&[0, 2, 3])
    }

    /// What isn't so of the two numbers.
    pub fn fault(&self) -> Option<&'static str> {
        let (quotient, remainder) = (u64::from(self.analysis.quotient), u64::from(self.analysis.remainder));
        let no_parts = (quotient, remainder) == (0, 0);
        let (unsafe_states, permitted) = (self.unsafe_states(), self.permitted());
        if !self.is_planned() {
            return (!no_parts).then_some("a refused analysis has parts per thousand");
        }
        if 1000 * unsafe_states != quotient * permitted + remainder || remainder >= permitted {
            return Some("1,000 times the unsafe states isn't the quotient times the permitted ones and the remainder");
        }
        if quotient > 999 {
            return Some("the quotient is over 999");
        }
        (no_parts != (unsafe_states == 0)).then_some("it has both numbers 0 with unsafe states, or one of them not 0 without any")
    }
}

/// What an analysis may be like.
type Sort = fn(&Made) -> bool;
const SORTS: [(&str, Sort); 10] = [
    ("0 and 0", |made| made.is_planned() && made.unsafe_states() == 0),
    ("under one in a thousand", |made| made.is_planned() && made.analysis.quotient == 0 && made.analysis.remainder > 0),
    ("no remainder", |made| made.analysis.quotient > 0 && made.analysis.remainder == 0),
    ("both", |made| made.analysis.quotient > 0 && made.analysis.remainder > 0),
    ("nine in ten and more", |made| made.analysis.quotient >= 900),
    ("dead states alone", |made| made.is_planned() && made.count(&[3]) > 0 && made.count(&[2]) == 0),
    ("dead and other unsafe states", |made| made.is_planned() && made.count(&[3]) > 0 && made.count(&[2]) > 0),
    ("a product over 16 bits", |made| made.is_planned() && 1000 * made.unsafe_states() > 0xFFFF),
    ("other counts with the bytes beyond the grid", |made| {
        made.is_planned() && made.unsafe_states() > 0 && made.beyond.iter().any(|byte| matches!(byte, 0 | 2 | 3))
    }),
    ("refused with 14 beside unsafe states", |made| made.analysis.answer.refusal == u32::from(sys::PLAN_TOO_SHORT) && made.unsafe_states() > 0),
];

/// How many analyses of each sort there were, and the highest quotient.
#[derive(Default)]
pub struct Parts {
    sorts: [u64; SORTS.len()],
    highest: u32,
}

impl Parts {
    pub fn count(&mut self, made: &Made) {
        self.highest = self.highest.max(made.analysis.quotient);
        for (count, (_, is_of_sort)) in self.sorts.iter_mut().zip(SORTS) {
            *count += u64::from(is_of_sort(made));
        }
    }

    /// Which sorts never came.
    pub fn missing(&self) -> impl Iterator<Item = String> + '_ {
        SORTS.iter().zip(self.sorts).filter(|(_, count)| *count == 0).map(|((sort, _), _)| format!("parts per thousand: {sort}"))
    }
}

impl Display for Parts {
    fn fmt(&self, out: &mut Formatter) -> Written {
        let sorts: Vec<String> = SORTS.iter().zip(self.sorts).map(|((sort, _), count)| format!("{count} {sort}")).collect();
        write!(out, "parts per thousand: {}; the highest quotient {}", sorts.join(", "), self.highest)
    }
}
