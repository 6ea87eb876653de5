//! A slice to lend with a fence before and behind it. Two copies are made alike, one is lent to the library and the other to the reference, and afterwards they
//! must be alike again, fences and all: so nothing was written outside the slice, and nothing inside that shouldn't have been.

use crate::random::Random;

#[derive(Clone)]
pub struct Fenced<T> {
    all: Box<[T]>,
    front: usize,
    len: usize,
}

impl<T: Copy + PartialEq> Fenced<T> {
    /// A slice of this content. Sometimes there is no fence at all: the slice is then a whole block of the heap, and a memory checker sees every access outside
    /// it, reads too. The front fence's odd lengths make for every alignment that the type allows.
    pub fn new(random: &mut Random, len: usize, mut content: impl FnMut(usize) -> T) -> Fenced<T> {
        let (front, back) = if random.one_in(3) { (0, 0) } else { (random.between(1, 19), random.between(1, 40)) };
        let all = (0..front + len + back).map(|i| content(i.wrapping_sub(front))).collect();
        Fenced { all, front, len }
    }

    pub fn lent(&mut self) -> &mut [T] {
        &mut self.all[self.front..self.front + self.len]
    }

    pub fn read(&self) -> &[T] {
        &self.all[self.front..self.front + self.len]
    }

    /// None if both are alike; else the first place where they differ, counted from the slice's start, and what stands there.
    pub fn difference(&self, other: &Fenced<T>) -> Option<(isize, T, T)> {
        if self.all == other.all {
            return None;
        }
        let at = (0..self.all.len()).find(|&at| self.all[at] != other.all[at])?;
        Some((at as isize - self.front as isize, self.all[at], other.all[at]))
    }
}
