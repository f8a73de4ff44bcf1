//! The junctions that are timed: a mix as a town has it, every group in use.

use compare::diamond::{self, Record, EAST, STORAGES};
use compare::generate::{Entries, Rng};
use compare::point;
use compare::rules::{
    self, approach_entry, movement_entry, Answer, ACCEPTED, BY_TABLE, CYCLE, ENTRIES, MOVEMENT,
    OLD_ENTRIES,
};

/// Lanes of left, through, right and the shared flag.
const SHAPES: [[u32; 4]; 8] = [
    [0, 1, 0, 1],
    [0, 1, 0, 0],
    [0, 2, 0, 1],
    [0, 2, 1, 1],
    [1, 1, 0, 0],
    [1, 2, 1, 0],
    [2, 3, 1, 0],
    [0, 0, 0, 0],
];

/// Of an approach, with or without pedestrians, at a junction whose lanes were each counted or were not.
fn approach(rng: &mut Rng, e: &mut Entries, a: usize, (walkers, counted): (bool, bool)) {
    // An empty leg is rarer than any other shape.
    let last = if rng.once_in(3) { 8 } else { 7 };
    let lanes = SHAPES[rng.below(last)];
    let open = u32::from(lanes[1] > 0);
    let volumes = [
        rng.within(5, 160),
        rng.within(60, 420) * lanes[1],
        rng.within(5, 160) * open,
    ];
    for turn in 0..3 {
        let volume = volumes[turn] * u32::from(turn > 0 || lanes[0] + lanes[3] > 0);
        let ideal = rng.pick(&[1_900, 1_900, 1_850]);
        let factor = if counted {
            rng.within(850, 1_000)
        } else {
            BY_TABLE
        };
        let entries = [lanes[turn], volume, ideal, 4_000, 4_000, factor];
        e[movement_entry(a, turn, 0)..][..MOVEMENT].copy_from_slice(&entries);
    }
    let crossing = if walkers { rng.within(5, 250) } else { 0 };
    let button = rng.below(4).min(1) as u32;
    let free = u32::from(rng.once_in(5));
    e[approach_entry(a, 0)..][..5].copy_from_slice(&[lanes[3], crossing, button, 16_000, free]);
}

/// An acceptable junction with or without pedestrians. At one in four somebody counted each lane.
fn junction(rng: &mut Rng, walkers: bool) -> Entries {
    let mut e = [0; ENTRIES];
    let counted = rng.once_in(4);
    for a in 0..4 {
        approach(rng, &mut e, a, (walkers, counted));
    }
    e[CYCLE] = rng.pick(&[60, 90, 100, 120, 120]);
    e
}

pub fn mix(rng: &mut Rng, count: usize, walkers: bool) -> Vec<Entries> {
    let mix: Vec<_> = (0..count).map(|_| junction(rng, walkers)).collect();
    assert!(mix.iter().all(|e| rules::judge(e) == ACCEPTED));
    mix
}

/// The sheets of N cells that a call fills from them.
pub fn sheets<const N: usize>(
    junctions: &[Entries],
    fill: fn(&[u32], &mut [u32]) -> Answer,
) -> Vec<[u32; N]> {
    let mut sheets = vec![[0; N]; junctions.len()];
    for (e, sheet) in junctions.iter().zip(&mut sheets) {
        fill(e, sheet);
    }
    sheets
}

/// The junctions as single points, which share no lane: lefts that shared one have a lane of their own.
pub fn points(junctions: &[Entries]) -> Vec<Entries> {
    let mut points = junctions.to_vec();
    for e in &mut points {
        for a in 0..4 {
            e[movement_entry(a, 0, 0)] += std::mem::take(&mut e[approach_entry(a, 0)]);
        }
    }
    assert!(points.iter().all(|e| point::judge(e) == ACCEPTED));
    points
}

/// The entries of a junction as a study file of before holds them, without its lane factors.
pub fn of_before(e: &Entries) -> [u32; OLD_ENTRIES] {
    std::array::from_fn(|entry| e[rules::place_today(entry)])
}

/// Interchanges of the junctions, two by two, with the cycle of the first.
pub fn records(rng: &mut Rng, junctions: &[Entries]) -> Vec<Record> {
    let record = |two: &[Entries]| {
        let mut record = [0; diamond::RECORD];
        record[..STORAGES].copy_from_slice(&two.concat());
        record[EAST + CYCLE] = record[CYCLE];
        let own: [u32; 4] = std::array::from_fn(|_| rng.within(4, 40));
        record[STORAGES..STORAGES + 4].copy_from_slice(&own);
        record[diamond::TRAVEL_TIME] = rng.within(3_000, 15_000);
        record
    };
    let records: Vec<Record> = junctions.chunks_exact(2).map(record).collect();
    assert!(records.iter().all(|r| diamond::judge(r) == ACCEPTED));
    records
}
