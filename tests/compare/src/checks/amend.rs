//! Amendments of either kind of sheet: one on a sheet of any history, one that puts a bad entry right, and long runs.

use crate::lent::Lent;
use crate::report::{compare_named, Tally};
use compare::generate::{self, Kind, Rng};
use compare::rules::Answer;

/// Amendments of a kind of sheet: the library's call, its name, those of the cells, and what is counted of a sheet before, an
/// entry with its value, and the answer.
pub struct Amendments {
    pub kind: Kind,
    pub library: fn(&mut [u32], u32, u32) -> Answer,
    pub call: &'static str,
    pub cell: fn(usize) -> String,
    pub count: fn(&mut Tally, &[u32], (u32, u32), Answer),
}

#[cfg(feature = "amend")]
mod junctions {
    use super::*;
    use crate::report::cell_name;
    use compare::generate::JUNCTION;
    use compare::library;

    const JUNCTIONS: Amendments = Amendments {
        kind: JUNCTION,
        library: library::amend,
        call: "amend",
        cell: cell_name,
        count: |_, _, _, _| {},
    };

    pub fn amend(rng: &mut Rng, tally: &mut Tally) -> Result<(), String> {
        amend_of(&JUNCTIONS, rng, tally)
    }

    pub fn repair(rng: &mut Rng, tally: &mut Tally) -> Result<(), String> {
        repair_of(&JUNCTIONS, rng, tally)
    }

    pub fn run_of_amendments(rng: &mut Rng, tally: &mut Tally) -> Result<(), String> {
        run_of(&JUNCTIONS, rng, tally)
    }
}

#[cfg(feature = "amend")]
pub use junctions::{amend, repair, run_of_amendments};

/// One amendment on both; the sheets go on to the next.
fn amend_both(
    amendments: &Amendments,
    (ours, theirs): (&mut Lent<u32>, &mut Lent<u32>),
    (entry, value): (u32, u32),
    tally: &mut Tally,
) -> Result<(), String> {
    let before = ours.part().to_vec();
    let first = (amendments.kind.amend)(ours.part_mut(), entry, value);
    let second = (amendments.library)(theirs.part_mut(), entry, value);
    tally.answered(amendments.call, first);
    (amendments.count)(tally, &before, (entry, value), first);
    let call = amendments.call;
    let input = || format!("{call} of entry {entry} to {value} on {before:?}");
    compare_named(&input, (first, ours), (second, theirs), amendments.cell)
}

pub fn amend_of(amendments: &Amendments, rng: &mut Rng, tally: &mut Tally) -> Result<(), String> {
    let sheet = generate::any_sheet(rng, &amendments.kind);
    let mut ours = Lent::new(rng, &sheet);
    let mut theirs = ours.clone();
    let change = generate::amendment(rng);
    amend_both(amendments, (&mut ours, &mut theirs), change, tally)
}

pub fn repair_of(amendments: &Amendments, rng: &mut Rng, tally: &mut Tally) -> Result<(), String> {
    let (sheet, entry, value) = generate::repairable(rng, &amendments.kind);
    let mut ours = Lent::new(rng, &sheet);
    let mut theirs = ours.clone();
    amend_both(amendments, (&mut ours, &mut theirs), (entry, value), tally)
}

pub fn run_of(amendments: &Amendments, rng: &mut Rng, tally: &mut Tally) -> Result<(), String> {
    let sheet = generate::any_sheet(rng, &amendments.kind);
    let mut ours = Lent::new(rng, &sheet);
    let mut theirs = ours.clone();
    for _ in 0..rng.below(60) {
        let change = generate::amendment(rng);
        amend_both(amendments, (&mut ours, &mut theirs), change, tally)?;
    }
    Ok(())
}
