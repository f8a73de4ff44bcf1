//! Open studies in plain Rust: 165 places with an owner and a block of entries each, shared by offices
//! of which each sees its own sites alone.

use crate::rules::{self, refused, Answer, ACCEPTED, CELLS, ENTRIES, ENTRY, SIZE};

pub const PLACES: usize = 165;
pub const BLOCKS: usize = PLACES * ENTRIES;
/// The owner of a place that nobody has.
pub const FREE: u32 = 0;

pub const OWNER: u32 = 9;
pub const FULL: u32 = 10;

pub type Add = fn(&mut [u32], &mut [u32], u32, &[u32], &mut u32) -> Answer;
pub type Amend = fn(&[u32], &mut [u32], u32, u32, (u32, u32)) -> Answer;
pub type Read = fn(&[u32], &[u32], u32, u32, &mut [u32]) -> Answer;

/// The three calls of one who keeps an open study.
#[derive(Clone, Copy)]
pub struct Calls {
    pub add: Add,
    pub amend: Amend,
    pub read: Read,
}

pub const RULES: Calls = Calls { add, amend, read };

/// Whether owners and blocks have their lengths.
pub fn laid_out(owners: &[u32], blocks: &[u32]) -> bool {
    owners.len() == PLACES && blocks.len() == BLOCKS
}

/// The numbers of a block among those of all.
fn block(site: usize) -> std::ops::Range<usize> {
    ENTRIES * site..ENTRIES * (site + 1)
}

/// The place, if a site of the office's own stands there.
fn own(owners: &[u32], office: u32, site: u32) -> Option<usize> {
    let place = usize::try_from(site).ok()?;
    let owner = *owners.get(place)?;
    (owner != FREE && owner == office).then_some(place)
}

/// The lowest place that nobody has.
pub fn lowest_free(owners: &[u32]) -> Option<usize> {
    owners.iter().position(|&owner| owner == FREE)
}

/// Puts the entries at the lowest free place, under the office's number.
pub fn add(
    owners: &mut [u32],
    blocks: &mut [u32],
    office: u32,
    entries: &[u32],
    place: &mut u32,
) -> Answer {
    if !laid_out(owners, blocks) || entries.len() != ENTRIES {
        return refused(SIZE, 0);
    }
    if office == FREE {
        return refused(OWNER, 0);
    }
    let answer = rules::judge(entries);
    if answer != ACCEPTED {
        return answer;
    }
    let Some(free) = lowest_free(owners) else {
        return refused(FULL, 0);
    };
    owners[free] = office;
    blocks[block(free)].copy_from_slice(entries);
    *place = free as u32;
    ACCEPTED
}

/// Stores one entry in a block of the office's own, if all its entries are then acceptable.
pub fn amend(
    owners: &[u32],
    blocks: &mut [u32],
    office: u32,
    site: u32,
    (entry, value): (u32, u32),
) -> Answer {
    if !laid_out(owners, blocks) {
        return refused(SIZE, 0);
    }
    if entry as usize >= ENTRIES {
        return refused(ENTRY, 0);
    }
    let Some(place) = own(owners, office, site) else {
        return refused(OWNER, site);
    };
    let number = &mut blocks[block(place)][entry as usize];
    let before = std::mem::replace(number, value);
    let answer = rules::judge(&blocks[block(place)]);
    if answer != ACCEPTED {
        blocks[block(place)][entry as usize] = before;
    }
    answer
}

/// Fills the sheet from a block of the office's own.
pub fn read(owners: &[u32], blocks: &[u32], office: u32, site: u32, sheet: &mut [u32]) -> Answer {
    if !laid_out(owners, blocks) || sheet.len() != CELLS {
        return refused(SIZE, 0);
    }
    match own(owners, office, site) {
        Some(place) => rules::fill(&blocks[block(place)], sheet),
        None => refused(OWNER, site),
    }
}
