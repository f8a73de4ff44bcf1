//! A fill of any entries into any sheet, of either kind.

use super::unread;
use crate::lent::Lent;
use crate::report::{cell_name, compare_named, Tally};
use compare::generate::{self, Kind, Rng, JUNCTION};
use compare::library;
use compare::rules::{Answer, ACCEPTED};

/// Fills of a kind of sheet: the library's call, its name, those of the cells, and what is counted of entries, answer and sheet.
pub struct Fills {
    pub kind: Kind,
    pub library: fn(&[u32], &mut [u32]) -> Answer,
    pub call: &'static str,
    pub cell: fn(usize) -> String,
    pub count: fn(&mut Tally, &[u32], Answer, &[u32]),
}

const JUNCTIONS: Fills = Fills {
    kind: JUNCTION,
    library: library::fill,
    call: "fill",
    cell: cell_name,
    count: |tally, _, answer, sheet| {
        if answer == ACCEPTED {
            tally.filled(sheet);
        }
    },
};

pub fn fill(rng: &mut Rng, tally: &mut Tally) -> Result<(), String> {
    fill_of(&JUNCTIONS, rng, tally)
}

pub fn fill_of(fills: &Fills, rng: &mut Rng, tally: &mut Tally) -> Result<(), String> {
    let contents = generate::any_entries(rng, &fills.kind);
    let entries = Lent::new(rng, &contents);
    let length = if rng.once_in(12) {
        generate::any_length(rng)
    } else {
        fills.kind.cells
    };
    let mut ours: Lent<u32> = Lent::anything(rng, length);
    let (mut theirs, kept) = (ours.clone(), entries.clone());
    let first = (fills.kind.fill)(entries.part(), ours.part_mut());
    let second = (fills.library)(entries.part(), theirs.part_mut());
    tally.answered(fills.call, first);
    (fills.count)(tally, &contents, first, ours.part());
    let input = || format!("{} of {contents:?}\ninto a sheet of {length}", fills.call);
    compare_named(&input, (first, &ours), (second, &theirs), fills.cell)?;
    unread(&kept, &entries, fills.call)
}
