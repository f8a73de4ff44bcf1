//! Open studies to try and what offices do in them: places free, few and none, owners of any numbers,
//! blocks of any entries, and steps for a site of one's own, for another's and for none at all.

use super::{acceptable, amendment, any_entries, any_length, any_number, any_numbers};
use super::{nearly, usual, Rng, JUNCTION};
use crate::open::{BLOCKS, FREE, PLACES};
use crate::rules::{self, approach_entry, kind_of, movement_entry};
use crate::rules::{CELLS, ENTRIES, NOLANE, RANGE, SHARED};

/// Owners, blocks, and the numbers of those who work in the study.
pub struct Study {
    pub owners: Vec<u32>,
    pub blocks: Vec<u32>,
    pub offices: Vec<u32>,
}

/// What an office asks for.
#[derive(Debug)]
pub enum Act {
    /// The entries.
    Add(Vec<u32>),
    /// The site, the entry and its value.
    Amend(u32, (u32, u32)),
    /// The site, and how long the lent sheet is.
    Read(u32, usize),
}

#[derive(Debug)]
pub struct Step {
    pub office: u32,
    pub act: Act,
}

// ---------------------------------------------------------------- studies

/// Two to five numbers of offices, the least and the largest often among them.
fn offices(rng: &mut Rng) -> Vec<u32> {
    let number = |rng: &mut Rng| match rng.below(4) {
        0 => any_number(rng).max(1),
        1 => rng.pick(&[u32::MAX, u32::MAX - 1, 1 << 31, 165]),
        _ => rng.within(1, 4),
    };
    (0..rng.within(2, 5)).map(|_| number(rng)).collect()
}

/// A place, the first and the last more often than others.
fn any_place(rng: &mut Rng) -> usize {
    match rng.below(8) {
        0 => 0,
        1 => PLACES - 1,
        _ => rng.below(PLACES),
    }
}

/// All places free, those after some, a few of them, one, or none.
fn owners(rng: &mut Rng, offices: &[u32]) -> Vec<u32> {
    let owner = |rng: &mut Rng| match rng.once_in(20) {
        true => any_number(rng).max(1),
        false => rng.pick(offices),
    };
    let mut owners: Vec<u32> = (0..PLACES).map(|_| owner(rng)).collect();
    match rng.below(8) {
        0 => owners.fill(FREE),
        1 => owners[any_place(rng)..].fill(FREE),
        2 => {}
        3 => owners[any_place(rng)] = FREE,
        _ => {
            for _ in 0..rng.pick(&[2, 3, 5, 20, 200]) {
                owners[any_place(rng)] = FREE;
            }
        }
    }
    owners
}

/// Blocks out of a few: acceptable ones, ones with small faults, one of any numbers, one of zeros.
fn blocks(rng: &mut Rng) -> Vec<u32> {
    let few = [
        acceptable(rng).to_vec(),
        acceptable(rng).to_vec(),
        acceptable(rng).to_vec(),
        acceptable(rng).to_vec(),
        nearly(rng).to_vec(),
        nearly(rng).to_vec(),
        any_numbers(rng, ENTRIES),
        vec![0; ENTRIES],
    ];
    let mut blocks = Vec::with_capacity(BLOCKS);
    for _ in 0..PLACES {
        blocks.extend(&few[rng.below(few.len())]);
    }
    blocks
}

/// A length around the one that is right.
fn wrong_length(rng: &mut Rng, right: usize) -> usize {
    rng.pick(&[
        0,
        1,
        right - 1,
        right + 1,
        right - ENTRIES,
        right + ENTRIES,
        PLACES,
    ])
}

/// A study of any history, now and then with a list of the wrong length.
pub fn any_study(rng: &mut Rng) -> Study {
    let offices = offices(rng);
    let (mut owners, mut blocks) = (owners(rng, &offices), blocks(rng));
    if rng.once_in(8) {
        let (list, right) = match rng.once_in(2) {
            true => (&mut owners, PLACES),
            false => (&mut blocks, BLOCKS),
        };
        list.resize(wrong_length(rng, right), 1);
    }
    Study {
        owners,
        blocks,
        offices,
    }
}

// ---------------------------------------------------------------- steps

/// A site of the office's own, the first from some place on.
fn own_site(rng: &mut Rng, owners: &[u32], office: u32) -> Option<u32> {
    let from = rng.below(owners.len().max(1));
    let mut places = (0..owners.len()).map(|step| (from + step) % owners.len());
    let place = places.find(|&place| owners[place] == office)?;
    Some(place as u32)
}

/// Mostly a site of the office's own, else any place, or one that there is not.
fn any_site(rng: &mut Rng, owners: &[u32], office: u32) -> u32 {
    // 93 and 372 times the last two are less than a block past 2³².
    let beyond = [
        165, 166, 180, 15_345, 1 << 31, u32::MAX, 46_182_445, 11_545_612,
    ];
    match rng.below(20) {
        0 => any_number(rng),
        1 => rng.pick(&beyond),
        2..=5 => any_place(rng) as u32,
        _ => own_site(rng, owners, office).unwrap_or(any_place(rng) as u32),
    }
}

/// What puts the first fault of a block right, if it has one: a value in range, no shared lane, no volume.
fn mending(rng: &mut Rng, block: &[u32]) -> Option<(u32, u32)> {
    let answer = rules::judge(block);
    match answer.number {
        RANGE => Some((answer.place, usual(rng, kind_of(answer.place as usize)))),
        SHARED => Some((approach_entry(answer.place as usize, 0) as u32, 0)),
        NOLANE => Some((movement_entry(0, answer.place as usize, 1) as u32, 0)),
        _ => None,
    }
}

/// An amendment of any entry, now and then one that mends the block.
fn change(rng: &mut Rng, blocks: &[u32], site: u32) -> (u32, u32) {
    let block = blocks.chunks_exact(ENTRIES).nth(site as usize);
    let change = amendment(rng);
    match block {
        Some(block) if rng.once_in(3) => mending(rng, block).unwrap_or(change),
        _ => change,
    }
}

/// What one of the offices does next, or one that has no number or a strange one.
pub fn any_step(rng: &mut Rng, offices: &[u32], owners: &[u32], blocks: &[u32]) -> Step {
    let office = match rng.below(24) {
        0 => FREE,
        1 => any_number(rng),
        _ => rng.pick(offices),
    };
    let site = any_site(rng, owners, office);
    let act = match rng.below(8) {
        0 | 1 => Act::Add(any_entries(rng, &JUNCTION)),
        2..=4 => Act::Read(site, sheet_length(rng)),
        _ => Act::Amend(site, change(rng, blocks, site)),
    };
    Step { office, act }
}

fn sheet_length(rng: &mut Rng) -> usize {
    match rng.once_in(20) {
        true => any_length(rng),
        false => CELLS,
    }
}
