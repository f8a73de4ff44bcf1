//! Junctions as a planner types them: everyday lanes, counts and times, and such with a bus gate.

use compare::generate::{Entries, Rng};
use compare::rules::{approach_entry, movement_entry, CYCLE, ENTRIES};

/// Lanes of left, through and right, and the shared flag; those met more often stand here more often.
const SHAPES: [[u32; 4]; 18] = [
    [0, 1, 0, 1],
    [0, 1, 0, 1],
    [0, 1, 0, 1],
    [0, 1, 1, 1],
    [0, 2, 0, 1],
    [0, 2, 1, 1],
    [0, 1, 0, 0],
    [1, 1, 0, 0],
    [1, 1, 0, 0],
    [1, 1, 0, 0],
    [1, 1, 1, 0],
    [1, 2, 0, 0],
    [1, 2, 0, 0],
    [1, 2, 1, 0],
    [1, 3, 0, 0],
    [1, 3, 1, 0],
    [2, 2, 1, 0],
    [2, 3, 1, 0],
];
const GATES: [[u32; 4]; 4] = [[0, 1, 0, 1], [0, 1, 0, 0], [1, 1, 0, 0], [0, 2, 0, 1]];
const IDEALS: [u32; 10] = [
    1_900, 1_900, 1_900, 1_900, 1_900, 1_700, 1_800, 1_850, 1_950, 2_000,
];
const GATE_IDEAL: u32 = 1_000;

/// What holds for a whole junction.
struct Town {
    ideal: u32,
    lost: u32,
    least: u32,
    walked: bool,
    /// How busy it is, in hundredths.
    load: u32,
    /// Whether counts were made round, as forecasts are.
    round: bool,
}

impl Town {
    fn new(rng: &mut Rng) -> Town {
        Town {
            ideal: rng.pick(&IDEALS),
            lost: rng.pick(&[3_000, 3_500, 4_000, 4_000, 4_000, 4_500, 5_000]),
            least: 500 * rng.within(8, 20),
            walked: rng.once_in(2),
            load: rng.within(20, 120),
            round: rng.once_in(2),
        }
    }

    /// A count of a movement that stands in so many lanes.
    fn count(&self, rng: &mut Rng, least: u32, most: u32, lanes: u32) -> u32 {
        let counted = rng.within(least, most) * lanes * self.load / 100;
        match self.round {
            true => (counted + 2) / 5 * 5,
            false => counted,
        }
    }
}

/// Counts of left, through and right; what shares a lane with others leaves room for them.
fn counts(rng: &mut Rng, town: &Town, [left, through, right, shared]: [u32; 4]) -> [u32; 3] {
    let lefts = match (left, shared) {
        (0, 0) => 0,
        (0, _) => town.count(rng, 10, 110, 1),
        _ => town.count(rng, 10, 260, left),
    };
    let busiest = if shared == 1 && through == 1 {
        420
    } else {
        560
    };
    let throughs = town.count(rng, 90, busiest, through);
    let rights = match right {
        0 => town.count(rng, 10, 110, 1),
        _ => town.count(rng, 10, 300, right),
    };
    [lefts, throughs, rights]
}

fn approach(rng: &mut Rng, e: &mut Entries, a: usize, town: &Town, lanes: [u32; 4]) {
    let volumes = counts(rng, town, lanes);
    // Now and then lefts have a minimum green of their own.
    let least_left = if rng.once_in(3) { 4_000 } else { town.least };
    for turn in 0..3 {
        let least = if turn == 0 { least_left } else { town.least };
        let entries = [lanes[turn], volumes[turn], town.ideal, town.lost, least];
        e[movement_entry(a, turn, 0)..][..5].copy_from_slice(&entries);
    }
    let walkers = if town.walked { rng.within(2, 250) } else { 0 };
    let button = u32::from(!rng.once_in(4));
    let free = u32::from(lanes[2] > 0 && rng.once_in(5));
    let walk = 500 * rng.within(14, 50);
    e[approach_entry(a, 0)..][..5].copy_from_slice(&[lanes[3], walkers, button, walk, free]);
}

/// Nobody drives here; people may still cross.
fn close(e: &mut Entries, a: usize) {
    for turn in 0..3 {
        e[movement_entry(a, turn, 0)..][..2].fill(0);
    }
    e[approach_entry(a, 0)] = 0;
}

/// Buses and a few others go through a gate.
fn put_gate(rng: &mut Rng, e: &mut Entries, a: usize, town: &Town) {
    let lanes = rng.pick(&GATES);
    let lefts = u32::from(lanes[0] + lanes[3] > 0);
    approach(rng, e, a, town, lanes);
    let volumes = [
        lefts * rng.within(0, 70),
        rng.within(10, 260),
        rng.within(0, 50),
    ];
    for (turn, volume) in volumes.into_iter().enumerate() {
        e[movement_entry(a, turn, 1)] = volume;
        e[movement_entry(a, turn, 2)] = GATE_IDEAL;
    }
}

/// An acceptable junction of a town.
fn in_town(rng: &mut Rng, town: &Town) -> Entries {
    let mut e = [0; ENTRIES];
    for street in 0..2 {
        let shape = rng.pick(&SHAPES);
        for a in [2 * street, 2 * street + 1] {
            let lanes = if rng.once_in(3) {
                rng.pick(&SHAPES)
            } else {
                shape
            };
            approach(rng, &mut e, a, town, lanes);
        }
    }
    if rng.once_in(8) {
        let a = rng.below(4);
        close(&mut e, a);
    }
    e[CYCLE] = 5 * rng.within(12, 36);
    e
}

/// A junction without a bus gate.
pub fn junction(rng: &mut Rng) -> Entries {
    let town = Town::new(rng);
    in_town(rng, &town)
}

/// One with a gate, on one side of a street or on both.
pub fn gated(rng: &mut Rng) -> Entries {
    let town = Town::new(rng);
    let mut e = in_town(rng, &town);
    let (a, both) = (rng.below(4), rng.once_in(2));
    put_gate(rng, &mut e, a, &town);
    if both {
        put_gate(rng, &mut e, a ^ 1, &town);
    }
    e
}
