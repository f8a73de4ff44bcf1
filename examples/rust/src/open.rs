//! Open studies: 165 places that several offices share, each of which works on its own sites alone.
//!
//! Adds and amendments borrow a study for writing and reads for reading, so the compiler keeps what the
//! library asks of threads: behind a [`RwLock`](std::sync::RwLock) a writer is alone, and reads run
//! together. Between two calls others may have added.
//!
//! An office's number is what the program says it is. Numbers are kept apart; who is behind one is for
//! the program to know.

use crate::{sys, Entries, Entry, Refusal, Sheet};
use std::num::NonZeroU32;

/// An office by its number, any but 0, which stands for a free place.
#[derive(Clone, Copy, Debug, PartialEq, Eq, PartialOrd, Ord, Hash)]
pub struct Office(NonZeroU32);

impl Office {
    /// None for 0.
    pub const fn new(number: u32) -> Option<Office> {
        match NonZeroU32::new(number) {
            Some(number) => Some(Office(number)),
            None => None,
        }
    }

    pub const fn number(self) -> u32 {
        self.0.get()
    }
}

impl From<NonZeroU32> for Office {
    fn from(number: NonZeroU32) -> Office {
        Office(number)
    }
}

/// The owners and the blocks of a study; sites are places, counted from 0.
#[derive(Clone, Debug, PartialEq, Eq)]
pub struct OpenStudy {
    owners: Vec<u32>,
    blocks: Vec<u32>,
}

impl OpenStudy {
    pub const PLACES: usize = 165;
    /// The numbers of all blocks.
    pub const NUMBERS: usize = OpenStudy::PLACES * Entries::COUNT;

    /// Every place free.
    pub fn new() -> OpenStudy {
        OpenStudy {
            owners: vec![0; OpenStudy::PLACES],
            blocks: vec![0; OpenStudy::NUMBERS],
        }
    }

    /// A study of lists from elsewhere: 165 owners, 0 for a free place, and as many blocks of 93 entries.
    /// They may hold any numbers; only their lengths are judged here.
    pub fn from_parts(
        owners: impl Into<Vec<u32>>,
        blocks: impl Into<Vec<u32>>,
    ) -> Result<OpenStudy, Refusal> {
        let (owners, blocks) = (owners.into(), blocks.into());
        match (owners.len(), blocks.len()) {
            (OpenStudy::PLACES, OpenStudy::NUMBERS) => Ok(OpenStudy { owners, blocks }),
            _ => Err(Refusal::Size),
        }
    }

    /// Owners and blocks, to be kept somewhere.
    pub fn parts(&self) -> (&[u32], &[u32]) {
        (&self.owners, &self.blocks)
    }

    /// Puts the entries at the lowest free place, as a site of the office, and gives the place.
    pub fn add(&mut self, office: Office, entries: &Entries) -> Result<u32, Refusal> {
        let (owners, blocks) = (&mut self.owners, &mut self.blocks);
        sys::open_add(owners, blocks, office.number(), entries.numbers())
    }

    /// Changes one entry of a site of the office's own.
    pub fn amend(
        &mut self,
        office: Office,
        site: u32,
        entry: Entry,
        value: u32,
    ) -> Result<(), Refusal> {
        let change = (entry.place() as u32, value);
        sys::open_amend(
            &self.owners,
            &mut self.blocks,
            office.number(),
            site,
            change,
        )
    }

    /// The sheet of a site of the office's own: the fresh fill of its entries as they stand.
    pub fn read(&self, office: Office, site: u32) -> Result<Sheet, Refusal> {
        let (owners, blocks) = self.parts();
        Sheet::by(|cells| sys::open_read(owners, blocks, office.number(), site, cells))
    }
}

impl Default for OpenStudy {
    fn default() -> OpenStudy {
        OpenStudy::new()
    }
}
