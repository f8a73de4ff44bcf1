//! Study files read, written and listed.

use super::unread;
use crate::lent::Lent;
use crate::report::{compare, Tally};
use compare::generate::{self, Rng};
use compare::library;
use compare::rules::{self, ENTRIES};

/// A file's answer, and its count as a list of one number.
pub fn file(rng: &mut Rng, tally: &mut Tally) -> Result<(), String> {
    let contents = generate::any_file(rng);
    let file = Lent::new(rng, &contents);
    let kept = file.clone();
    let first = rules::study_check(file.part());
    let second = library::study_check(file.part());
    tally.answered("study check", first);
    tally.study(&contents);
    let mut ours = Lent::new(rng, &[0]);
    let mut theirs = ours.clone();
    ours.part_mut()[0] = rules::study_count(file.part());
    theirs.part_mut()[0] = library::study_count(file.part());
    let input = || format!("check and count of the file {contents:02x?}");
    compare(&input, (first, &ours), (second, &theirs))?;
    unread(&kept, &file, "study check")
}

pub fn site(rng: &mut Rng, tally: &mut Tally) -> Result<(), String> {
    let contents = generate::any_file(rng);
    let file = Lent::new(rng, &contents);
    let kept = file.clone();
    let site = generate::any_site(rng, &contents);
    let length = if rng.once_in(8) {
        generate::any_length(rng)
    } else {
        ENTRIES
    };
    let mut ours: Lent<u32> = Lent::anything(rng, length);
    let mut theirs = ours.clone();
    let first = rules::study_site(file.part(), site, ours.part_mut());
    let second = library::study_site(file.part(), site, theirs.part_mut());
    tally.answered("study site", first);
    tally.study(&contents);
    let input = || format!("site {site} of {contents:02x?}\ninto a list of {length}");
    compare(&input, (first, &ours), (second, &theirs))?;
    unread(&kept, &file, "study site")
}

/// Entries to write: whole sites, too many, or a few numbers more or less.
fn to_write(rng: &mut Rng) -> Vec<u32> {
    let count = match rng.once_in(20) {
        true => rng.pick(&[166, 167, 180, 200]),
        false => generate::any_count(rng),
    };
    let mut entries = generate::sites(rng, count);
    if rng.once_in(5) {
        let length = (entries.len() + rng.below(3)).saturating_sub(1);
        entries.resize(length, 5);
    }
    entries
}

/// Room for so many bytes: just enough, one too little, far too little, or more.
fn room(rng: &mut Rng, needed: usize) -> usize {
    match rng.below(8) {
        0 => needed.saturating_sub(1),
        1 => rng.below(needed + 1),
        2..=4 => needed,
        _ => needed + rng.below(700),
    }
}

pub fn write(rng: &mut Rng, tally: &mut Tally) -> Result<(), String> {
    let contents = to_write(rng);
    let entries = Lent::new(rng, &contents);
    let kept = entries.clone();
    let length = room(rng, rules::file_length(contents.len() / ENTRIES));
    let mut ours: Lent<u8> = Lent::anything(rng, length);
    let mut theirs = ours.clone();
    let first = rules::study_write(entries.part(), ours.part_mut());
    let second = library::study_write(entries.part(), theirs.part_mut());
    tally.answered("study write", first);
    let input = || format!("writing of {contents:?}\ninto {length} bytes");
    compare(&input, (first, &ours), (second, &theirs))?;
    unread(&kept, &entries, "study write")
}

pub fn list(rng: &mut Rng, tally: &mut Tally) -> Result<(), String> {
    let contents = generate::any_file(rng);
    let file = Lent::new(rng, &contents);
    let kept = file.clone();
    let size = room(rng, rules::listing(&contents).len());
    let mut ours: Lent<u8> = Lent::anything(rng, size);
    let mut our_length: Lent<u32> = Lent::anything(rng, 1);
    let (mut theirs, mut their_length) = (ours.clone(), our_length.clone());
    let length = &mut our_length.part_mut()[0];
    let first = rules::study_list(file.part(), ours.part_mut(), length);
    let length = &mut their_length.part_mut()[0];
    let second = library::study_list(file.part(), theirs.part_mut(), length);
    tally.answered("study list", first);
    tally.study(&contents);
    let input = || format!("listing of {contents:02x?}\ninto {size} bytes");
    compare(&input, (first, &ours), (second, &theirs))?;
    compare(&input, (first, &our_length), (second, &their_length))?;
    unread(&kept, &file, "study list")
}
