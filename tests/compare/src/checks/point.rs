//! Single points: the starting entries into any list, fills and amendments.

use super::amend::{amend_of, repair_of, run_of, Amendments};
use super::fill::{fill_of, Fills};
use crate::lent::Lent;
use crate::report::{compare_named, point_cell, Tally};
use compare::generate::point::POINT;
use compare::generate::{self, Rng};
use compare::rules::ENTRIES;
use compare::{library, point};

const FILLS: Fills = Fills {
    kind: POINT,
    library: library::point_fill,
    call: "point fill",
    cell: point_cell,
    count: Tally::point,
};

const AMENDMENTS: Amendments = Amendments {
    kind: POINT,
    library: library::point_amend,
    call: "point amend",
    cell: point_cell,
    count: Tally::point_amended,
};

pub fn start(rng: &mut Rng, tally: &mut Tally) -> Result<(), String> {
    let length = match rng.once_in(2) {
        true => generate::any_length(rng),
        false => ENTRIES,
    };
    let mut ours: Lent<u32> = Lent::anything(rng, length);
    let mut theirs = ours.clone();
    let first = point::start(ours.part_mut());
    let second = library::point_start(theirs.part_mut());
    tally.answered("point start", first);
    let input = || format!("starting entries into a list of {length}");
    compare_named(&input, (first, &ours), (second, &theirs), point_cell)
}

pub fn fill(rng: &mut Rng, tally: &mut Tally) -> Result<(), String> {
    fill_of(&FILLS, rng, tally)
}

pub fn amend(rng: &mut Rng, tally: &mut Tally) -> Result<(), String> {
    amend_of(&AMENDMENTS, rng, tally)
}

pub fn repair(rng: &mut Rng, tally: &mut Tally) -> Result<(), String> {
    repair_of(&AMENDMENTS, rng, tally)
}

pub fn run_of_amendments(rng: &mut Rng, tally: &mut Tally) -> Result<(), String> {
    run_of(&AMENDMENTS, rng, tally)
}
