//! An interchange of any record, into any list.

use super::unread;
use crate::lent::Lent;
use crate::report::{compare_named, diamond_cell, Tally};
use compare::diamond::{self, CELLS};
use compare::generate::{self, Rng};
use compare::library;
use compare::rules::{ACCEPTED, BLANK};

/// A list to be written: mostly of the right length, holding anything, BLANK throughout or 0.
fn room(rng: &mut Rng) -> Lent<u32> {
    let length = match rng.once_in(12) {
        true => generate::diamond::any_length(rng),
        false => CELLS,
    };
    match rng.below(4) {
        0 => Lent::new(rng, &vec![BLANK; length]),
        1 => Lent::new(rng, &vec![0; length]),
        _ => Lent::anything(rng, length),
    }
}

pub fn diamond(rng: &mut Rng, tally: &mut Tally) -> Result<(), String> {
    let contents = generate::diamond::any_record(rng);
    let record = Lent::new(rng, &contents);
    let mut ours = room(rng);
    let (mut theirs, kept) = (ours.clone(), record.clone());
    let first = diamond::diamond(record.part(), ours.part_mut());
    let second = library::diamond(record.part(), theirs.part_mut());
    tally.answered("diamond", first);
    if let (ACCEPTED, Ok(record)) = (first, record.part().try_into()) {
        tally.interchange(record, ours.part());
    }
    let length = ours.part().len();
    let input = || format!("diamond of {contents:?}\ninto a list of {length}");
    compare_named(&input, (first, &ours), (second, &theirs), diamond_cell)?;
    unread(&kept, &record, "diamond")
}
