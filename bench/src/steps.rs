//! Amendments to time: every one accepted, and all together bring each sheet back to its start.

use compare::generate::{usual, Entries, Rng};
use compare::rules::{judge, kind_of, ACCEPTED, ENTRIES, KINDS};

/// The kinds of entries in their order.
pub const NAMES: [&str; KINDS] = [
    "lanes",
    "volume",
    "ideal flow",
    "lost time",
    "minimum green",
    "lane factor",
    "shared lane",
    "pedestrians",
    "push button",
    "pedestrian time",
    "free right",
    "cycle",
];

/// An amendment of one of the sheets.
#[derive(Clone, Copy)]
pub struct Step {
    pub sheet: usize,
    pub entry: u32,
    pub value: u32,
}

/// Another acceptable value for some entry of the kind, if one is soon found.
fn change(rng: &mut Rng, e: &Entries, kind: usize) -> Option<(usize, u32)> {
    let places: Vec<usize> = (0..ENTRIES).filter(|&i| kind_of(i) == kind).collect();
    for _ in 0..60 {
        let (entry, value) = (rng.pick(&places), usual(rng, kind));
        let mut changed = *e;
        changed[entry] = value;
        if value != e[entry] && judge(&changed) == ACCEPTED {
            return Some((entry, value));
        }
    }
    None
}

/// One change of the kind for each junction that allows one, then all of them back.
pub fn of_kind(rng: &mut Rng, junctions: &[Entries], kind: usize) -> Vec<Step> {
    let (mut there, mut back) = (Vec::new(), Vec::new());
    for (sheet, e) in junctions.iter().enumerate() {
        if let Some((entry, value)) = change(rng, e, kind) {
            there.push(Step {
                sheet,
                entry: entry as u32,
                value,
            });
            back.push(Step {
                sheet,
                entry: entry as u32,
                value: e[entry],
            });
        }
    }
    there.extend(back);
    there
}

/// A change of any kind for each junction, then all of them back.
pub fn of_all_kinds(rng: &mut Rng, junctions: &[Entries]) -> Vec<Step> {
    let (mut there, mut back) = (Vec::new(), Vec::new());
    for (sheet, e) in junctions.iter().enumerate() {
        let kind = rng.below(KINDS);
        if let Some((entry, value)) = change(rng, e, kind) {
            there.push(Step {
                sheet,
                entry: entry as u32,
                value,
            });
            back.push(Step {
                sheet,
                entry: entry as u32,
                value: e[entry],
            });
        }
    }
    there.extend(back);
    there
}

/// Amends the sheets step by step and counts what was refused, which must be nothing.
pub fn take<const N: usize>(
    sheets: &mut [[u32; N]],
    steps: &[Step],
    amend: fn(&mut [u32], u32, u32) -> compare::rules::Answer,
) -> usize {
    let refused = |step: &&Step| amend(&mut sheets[step.sheet], step.entry, step.value) != ACCEPTED;
    steps.iter().filter(refused).count()
}
