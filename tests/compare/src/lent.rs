//! A lent list with canary numbers on both sides, so that a write past its ends is seen.

use compare::generate::Rng;

/// Enough on both sides for any slip by a whole sheet or a block.
const MARGIN: usize = 400;

#[derive(Clone, PartialEq)]
pub struct Lent<T> {
    cells: Vec<T>,
    at: usize,
    length: usize,
}

/// What canaries are made of.
pub trait Canary: Copy + PartialEq {
    fn canary(rng: &mut Rng) -> Self;
}

impl Canary for u32 {
    fn canary(rng: &mut Rng) -> u32 {
        rng.number()
    }
}

impl Canary for u8 {
    fn canary(rng: &mut Rng) -> u8 {
        rng.number() as u8
    }
}

impl<T: Canary> Lent<T> {
    /// Lends these contents, at a start that differs from one to the next by a few cells.
    pub fn new(rng: &mut Rng, contents: &[T]) -> Lent<T> {
        let at = MARGIN + rng.below(8);
        let length = contents.len();
        let mut cells: Vec<T> = (0..at + length + MARGIN).map(|_| T::canary(rng)).collect();
        cells[at..at + length].copy_from_slice(contents);
        Lent { cells, at, length }
    }

    /// Lends so many cells that hold anything.
    pub fn anything(rng: &mut Rng, length: usize) -> Lent<T> {
        let contents: Vec<T> = (0..length).map(|_| T::canary(rng)).collect();
        Lent::new(rng, &contents)
    }

    pub fn part(&self) -> &[T] {
        &self.cells[self.at..self.at + self.length]
    }

    pub fn part_mut(&mut self) -> &mut [T] {
        &mut self.cells[self.at..self.at + self.length]
    }

    /// Whether the cells around the part are those of the other.
    pub fn same_around(&self, other: &Lent<T>) -> bool {
        let end = self.at + self.length;
        self.cells[..self.at] == other.cells[..self.at] && self.cells[end..] == other.cells[end..]
    }
}
