//! An open study: 165 adds one after the other, amendments in the block, and reads.

use crate::steps::{self, Step};
use crate::timing::{self, Work};
use crate::{filling, row, FILL};
use compare::generate::{Entries, Rng};
use compare::open::{Calls, BLOCKS, FREE, PLACES, RULES};
use compare::rules::{self, approach_entry, movement_entry, ACCEPTED, CELLS, NOLANE};
use std::hint::black_box;

const OPEN: Option<Calls> = {
    #[cfg(feature = "open")]
    let calls: Option<Calls> = Some(compare::library::OPEN);
    #[cfg(not(feature = "open"))]
    let calls: Option<Calls> = None;
    calls
};

const OFFICE: u32 = 7;

#[derive(Clone, PartialEq)]
struct Study {
    owners: Vec<u32>,
    blocks: Vec<u32>,
}

impl Study {
    /// Every place free.
    fn free() -> Study {
        Study {
            owners: vec![FREE; PLACES],
            blocks: vec![0; BLOCKS],
        }
    }

    /// Every place the office's own, with one of these junctions.
    fn of(junctions: &[Entries]) -> Study {
        Study {
            owners: vec![OFFICE; PLACES],
            blocks: junctions.concat(),
        }
    }
}

/// Adds all to a study that is free, and counts those that were accepted.
fn add(calls: Calls, study: &mut Study, junctions: &[Entries]) -> usize {
    let (Study { owners, blocks }, mut place) = (study, 0);
    owners.fill(FREE);
    let mut add = |e: &Entries| (calls.add)(owners, blocks, OFFICE, e, &mut place);
    junctions.iter().filter(|e| add(e) == ACCEPTED).count()
}

fn adding(calls: Calls, junctions: &[Entries]) -> Work<'_> {
    let mut study = Study::free();
    Box::new(move || add(calls, black_box(&mut study), black_box(junctions)))
}

/// Takes the steps, all of which must be accepted, and counts those that are not.
fn amend(calls: Calls, study: &mut Study, steps: &[Step]) -> usize {
    let Study { owners, blocks } = study;
    let mut change = |s: &Step| {
        let (site, value) = (s.sheet as u32, (s.entry, s.value));
        (calls.amend)(owners, blocks, OFFICE, site, value)
    };
    steps.iter().filter(|s| change(s) != ACCEPTED).count()
}

fn amending<'a>(calls: Calls, study: &'a mut Study, steps: &'a [Step]) -> Work<'a> {
    Box::new(move || amend(calls, black_box(study), black_box(steps)))
}

fn reading(calls: Calls, study: &Study) -> Work<'_> {
    let mut sheet = [0; CELLS];
    Box::new(move || {
        let Study { owners, blocks } = black_box(study);
        let mut read = |site: u32| (calls.read)(owners, blocks, OFFICE, site, &mut sheet);
        let filled = (0..PLACES as u32).filter(|&site| read(site) == ACCEPTED);
        filled.count()
    })
}

/// What is timed must also be right: the adds make the study, the amendments end where they began, and a
/// site reads as it fills.
fn check(calls: Calls, junctions: &[Entries], steps: &[Step]) {
    let (full, mut study) = (Study::of(junctions), Study::free());
    let added = add(calls, &mut study, junctions);
    assert!(added == PLACES && study == full, "the adds went wrong");
    let refused = amend(calls, &mut study, steps);
    assert!(refused == 0 && study == full, "the amendments went wrong");
    for (site, e) in junctions.iter().enumerate() {
        let (mut ours, mut theirs) = ([0; CELLS], [1; CELLS]);
        rules::fill(e, &mut ours);
        (calls.read)(&full.owners, &full.blocks, OFFICE, site as u32, &mut theirs);
        assert!(ours == theirs, "a site reads otherwise than it fills");
    }
}

/// The same junctions, each refused at its last movement: what is left of a fill is its judging.
fn refused_last(junctions: &[Entries]) -> Vec<Entries> {
    let refused = |e: &Entries| {
        let mut e = *e;
        for (turn, volume) in [0, 0, 1].into_iter().enumerate() {
            e[movement_entry(3, turn, 0)] = 0;
            e[movement_entry(3, turn, 1)] = volume;
        }
        e[approach_entry(3, 0)] = 0;
        let answer = rules::judge(&e);
        assert_eq!((answer.number, answer.place), (NOLANE, 11));
        e
    };
    junctions.iter().map(refused).collect()
}

/// The library's amendments in the block beside its own fills, whole and refused, of the same junctions.
fn time_amend_in_fills(junctions: &[Entries], steps: &[Step], rounds: usize) {
    let (Some(calls), Some(fill)) = (OPEN, FILL) else {
        return;
    };
    let refused = refused_last(junctions);
    let share = |of: &[Entries]| {
        let mut study = Study::of(junctions);
        let library = Some(amending(calls, &mut study, steps));
        let times = timing::both(library, filling::<CELLS>(fill, of), steps.len(), rounds);
        // A round takes every step once and fills each junction once.
        let fills = of.len() as f64 / steps.len() as f64;
        times.ratio.map_or(0.0, |ratio| ratio * fills)
    };
    let (filled, judged) = (share(junctions), share(&refused));
    println!(
        "an amendment in the block takes {filled:.2} of the library's fills, {judged:.2} of their judging"
    );
}

/// Times the three calls on a study of as many junctions as it has places.
pub fn time(rng: &mut Rng, mix: &[Entries], rounds: usize) {
    let junctions = &mix[..PLACES];
    let steps = steps::of_all_kinds(rng, junctions);
    OPEN.iter()
        .chain([&RULES])
        .for_each(|calls| check(*calls, junctions, &steps));
    let (mut theirs, mut ours) = (Study::of(junctions), Study::of(junctions));
    let library = OPEN.map(|calls| adding(calls, junctions));
    row(
        &format!("open add, {PLACES} in turn"),
        timing::both(library, adding(RULES, junctions), PLACES, rounds),
    );
    let library = OPEN.map(|calls| amending(calls, &mut theirs, &steps));
    let rust = amending(RULES, &mut ours, &steps);
    row(
        "open amend, mix of all kinds",
        timing::both(library, rust, steps.len(), rounds),
    );
    time_amend_in_fills(junctions, &steps, rounds);
    let library = OPEN.map(|calls| reading(calls, &theirs));
    row(
        "open read, mix",
        timing::both(library, reading(RULES, &ours), PLACES, rounds),
    );
}
