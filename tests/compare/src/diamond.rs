//! Chapter 6 in plain Rust: two junctions of an east-west arterial and the road between them.

use crate::rules::{
    self, adjusted_lines, letter, refused, Answer, ACCEPTED, BLANK, CYCLE, ENTRIES,
};
use crate::rules::{approach_entry, movement_entry, NOLANE, RANGE, SHARED, SIZE};

/// A record: the west junction's entries, the east's, four storages, the travel time.
pub const RECORD: usize = 191;
pub const EAST: usize = 93;
pub const STORAGES: usize = 186;
pub const TRAVEL_TIME: usize = 190;
/// What comes of it, and where the plans begin in it.
pub const CELLS: usize = 29;
pub const PLANS: usize = 22;
pub const PICK: usize = 25;
pub const BEST: usize = 26;

pub const STORE: u32 = 7;
pub const TRAVEL: u32 = 8;

pub type Record = [u32; RECORD];

const EB: usize = 0;
const WB: usize = 1;
const NB: usize = 2;
const SB: usize = 3;

/// Of each junction the approach from outside, the one from the other junction, and the ramp.
const LEGS: [[usize; 3]; 2] = [[EB, WB, SB], [WB, EB, NB]];

/// The volumes of the lefts that wait in the storages, by their places in a record.
pub const STORED: [usize; 4] = [
    movement_entry(WB, 0, 1),
    EAST + movement_entry(EB, 0, 1),
    movement_entry(SB, 0, 1),
    EAST + movement_entry(NB, 0, 1),
];

/// A junction's entries out of a record.
pub fn junction(record: &Record, side: usize) -> &[u32; ENTRIES] {
    let half = if side == 0 {
        &record[..EAST]
    } else {
        &record[EAST..STORAGES]
    };
    half.try_into().expect("half of a record's entries")
}

/// What the east junction is refused for, its places counted on from the west's.
fn counted_on(answer: Answer) -> Answer {
    let on = match answer.number {
        RANGE => EAST as u32,
        SHARED => 4,
        NOLANE => 12,
        _ => 0,
    };
    refused(answer.number, answer.place + on)
}

/// SIZE; RANGE, the same cycle with it, SHARED and NOLANE, each over both junctions; STORE; TRAVEL.
pub fn judge(record: &[u32]) -> Answer {
    let Ok(record) = <&Record>::try_from(record) else {
        return refused(SIZE, 0);
    };
    let other_cycle = match record[EAST + CYCLE] == record[CYCLE] {
        true => ACCEPTED,
        false => refused(RANGE, (EAST + CYCLE) as u32),
    };
    let found = [
        rules::judge(junction(record, 0)),
        counted_on(rules::judge(junction(record, 1))),
        other_cycle,
    ];
    for number in [RANGE, SHARED, NOLANE] {
        if let Some(&first) = found.iter().find(|answer| answer.number == number) {
            return first;
        }
    }
    if let Some(place) = (STORAGES..TRAVEL_TIME).find(|&place| !(1..=999).contains(&record[place]))
    {
        return refused(STORE, place as u32);
    }
    match record[TRAVEL_TIME] <= 60_000 {
        true => ACCEPTED,
        false => refused(TRAVEL, TRAVEL_TIME as u32),
    }
}

/// N of a storage: the volume that its left has as an entry, times the cycle.
pub fn per_cycle(record: &Record, storage: usize) -> u64 {
    u64::from(record[STORED[storage]]) * u64::from(record[CYCLE])
}

/// Whether a storage ratio is below 1; a ratio of 1 is not.
pub fn fits(n: u64, storage: u64) -> bool {
    let room = 3_600 * storage;
    n < room && 16_384 * 3_600 * n < 10_000 * (room - n) * (room - n)
}

/// What a junction takes: its seven times, and their largest in three places.
struct Side {
    times: [u32; 7],
    entering: u32,
    ramp: u32,
    isolated: u32,
    alternate: u32,
}

impl Side {
    fn new(record: &Record, side: usize) -> Side {
        let entries = junction(record, side);
        let [outer, inner, ramp] = LEGS[side].map(|a| {
            let [left, through, right] = adjusted_lines(entries, a);
            let free = entries[approach_entry(a, 4)] == 1;
            [left, through, if free { 0 } else { right }]
        });
        let entering = outer[1].max(outer[2]);
        let off_ramp = ramp[0].max(ramp[1]);
        Side {
            times: [
                outer[1], outer[2], inner[0], inner[1], ramp[0], ramp[1], ramp[2],
            ],
            entering,
            ramp: off_ramp.max(ramp[2]),
            isolated: entering + inner[0] + off_ramp,
            alternate: inner[1] + off_ramp.max(ramp[2]),
        }
    }

    fn combined(&self) -> u32 {
        self.isolated.max(self.alternate)
    }

    fn overlap(&self, travel: u32) -> u32 {
        travel.min(self.entering)
    }

    /// What enters and its ramp, which is held at least twice the travel time.
    fn in_turn(&self, travel: u32) -> u32 {
        self.entering + self.ramp.max(2 * travel)
    }
}

/// Leading alternate, lagging, lead-lag.
fn plans(record: &Record, west: &Side, east: &Side) -> [u32; 3] {
    let travel = record[TRAVEL_TIME];
    let overlaps = west.overlap(travel) + east.overlap(travel);
    let fit = |storage: usize| {
        fits(
            per_cycle(record, storage),
            record[STORAGES + storage].into(),
        )
    };
    let off_ramp = fit(2) && fit(3);
    let together = west.combined().max(east.combined());
    let if_allowed = |allowed: bool| if allowed { together } else { BLANK };
    [
        west.in_turn(travel) + east.in_turn(travel) - overlaps,
        if_allowed(off_ramp && fit(0) && fit(1)),
        if_allowed(off_ramp),
    ]
}

/// The earliest of the least.
fn picked(plans: &[u32; 3]) -> usize {
    (0..3).min_by_key(|&plan| plans[plan]).unwrap_or(0)
}

fn work_out(record: &Record, cells: &mut [u32; CELLS]) {
    let (west, east) = (Side::new(record, 0), Side::new(record, 1));
    let plans = plans(record, &west, &east);
    let pick = picked(&plans);
    let icu = plans[pick].div_ceil(record[CYCLE]);
    cells[..7].copy_from_slice(&west.times);
    cells[7..14].copy_from_slice(&east.times);
    for (side, of) in [&west, &east].into_iter().enumerate() {
        cells[14 + side] = of.isolated;
        cells[16 + side] = of.alternate;
        cells[18 + side] = of.combined();
        cells[20 + side] = of.overlap(record[TRAVEL_TIME]);
    }
    cells[PLANS..PICK].copy_from_slice(&plans);
    cells[PICK..].copy_from_slice(&[pick as u32, plans[pick], icu, letter(icu)]);
}

/// Judges the record and writes the 29 cells; nothing is written on a refusal.
pub fn diamond(record: &[u32], cells: &mut [u32]) -> Answer {
    let Ok(cells) = <&mut [u32; CELLS]>::try_from(cells) else {
        return refused(SIZE, 0);
    };
    let answer = judge(record);
    if let (ACCEPTED, Ok(record)) = (answer, record.try_into()) {
        work_out(record, cells);
    }
    answer
}
