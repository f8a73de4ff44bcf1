//! Interchanges to try: storages that just fit, plans that take equally long, faults in one
//! junction and in both, and lists of any numbers and lengths.

use super::{acceptable, any_number, any_numbers, nearly, Entries, Rng};
use crate::diamond::{
    self, Record, BEST, CELLS, EAST, PLANS, RECORD, STORAGES, STORED, TRAVEL_TIME,
};
use crate::rules::{approach_entry, movement_entry, ACCEPTED, BLANK, CYCLE};

// ---------------------------------------------------------------- acceptable records

/// A record of two junctions, both with the cycle of the first.
fn joined(west: &Entries, east: &Entries) -> Record {
    let mut record = [1; RECORD];
    record[..EAST].copy_from_slice(west);
    record[EAST..STORAGES].copy_from_slice(east);
    record[EAST + CYCLE] = record[CYCLE];
    record
}

/// The least storage in which the lefts of a cycle fit, 999 where none would do.
fn least_storage(n: u64) -> u32 {
    let fit = |storage: &u32| diamond::fits(n, u64::from(*storage));
    let x = n as f64 / 3_600.0;
    let about = (x + 1.28 * x.sqrt()) as u32;
    (about.max(2) - 1..999).find(fit).unwrap_or(999)
}

/// Storages that fit, that just fit, that just do not, and any.
fn put_storages(rng: &mut Rng, record: &mut Record) {
    let way = rng.below(8);
    for storage in 0..4 {
        let n = diamond::per_cycle(record, storage);
        let least = least_storage(n);
        let on_the_arterial = storage < 2;
        record[STORAGES + storage] = match way {
            0 | 1 => least,
            2 => least.saturating_sub(u32::from(on_the_arterial)).max(1),
            3 => least.saturating_sub(u32::from(!on_the_arterial)).max(1),
            4 => rng.pick(&[least, least, least, least.max(2) - 1]),
            5 => rng.pick(&[1, 999, 2, 998]),
            6 => (n / 3_600).clamp(1, 999) as u32,
            _ => rng.within(1, 999),
        };
    }
}

/// A storage ratio of 1 exactly, which only 9,375 lefts and a cycle of 240 s reach.
fn on_the_point(rng: &mut Rng, record: &mut Record) {
    (record[CYCLE], record[EAST + CYCLE]) = (240, 240);
    let storage = rng.below(4);
    let place = STORED[storage];
    if record[place - 1] > 0 {
        record[place] = 9_375;
        record[STORAGES + storage] = rng.within(656, 658);
    }
}

fn travel(rng: &mut Rng) -> u32 {
    match rng.below(8) {
        0 => rng.pick(&[0, 1, 59_999, 60_000]),
        1 => rng.within(0, 60_000),
        2 | 3 => rng.within(0, 4_000),
        _ => rng.within(2_000, 20_000),
    }
}

/// The cells of a record with room for every left.
fn roomy(record: &Record) -> Option<[u32; CELLS]> {
    let (mut roomy, mut cells) = (*record, [0; CELLS]);
    roomy[STORAGES..TRAVEL_TIME].fill(999);
    let answer = diamond::diamond(&roomy, &mut cells);
    (answer == ACCEPTED && cells[PLANS + 2] != BLANK).then_some(cells)
}

/// Leading alternate's length less lagging's.
fn apart(cells: &[u32; CELLS]) -> i64 {
    i64::from(cells[PLANS]) - i64::from(cells[PLANS + 2])
}

/// Changes a time, which stays in its range, by so much.
fn shift(record: &mut Record, place: usize, by: i64, most: i64) {
    let time = i64::from(record[place]) + by;
    if (0..=most).contains(&time) {
        record[place] = time as u32;
    }
}

/// Makes a movement take so much longer, by its minimum green.
fn lengthen(record: &mut Record, movement: usize, time: u32, by: i64) {
    let green = i64::from(time) - i64::from(record[movement + 3]) + by;
    if (0..=60_000).contains(&green) {
        record[movement + 4] = green as u32;
    }
}

/// The lost times of what enters the west junction and the east one.
const LOST_IN_WEST: usize = movement_entry(0, 1, 3);
const LOST_IN_EAST: usize = EAST + movement_entry(1, 1, 3);

/// Moves one time so that the plans take equally long, or 1 ms apart, where one can.
fn to_tie(rng: &mut Rng, record: &mut Record) {
    let Some(cells) = roomy(record) else {
        return;
    };
    let by = apart(&cells) + i64::from(rng.within(0, 2)) - 1;
    // Lefts on the arterial lengthen the isolated time alone, what enters and the ramps both plans.
    let first = rng.below(6);
    for way in (0..6).map(|way| (first + way) % 6) {
        let mut moved = *record;
        match way {
            0 => shift(&mut moved, TRAVEL_TIME, by / 2, 60_000),
            1 => lengthen(&mut moved, movement_entry(1, 0, 0), cells[2], by),
            2 => lengthen(&mut moved, EAST, cells[9], by),
            3 => shift(&mut moved, LOST_IN_WEST, -by, 20_000),
            4 => shift(&mut moved, LOST_IN_EAST, -by, 20_000),
            _ => shift(&mut moved, TRAVEL_TIME, -by / 4, 60_000),
        }
        if roomy(&moved).is_some_and(|cells| apart(&cells).abs() <= 1) {
            *record = moved;
            return;
        }
    }
}

/// Moves the lost times of what enters so that the ICU falls at or beside a letter's end.
fn to_letter_end(rng: &mut Rng, record: &mut Record) {
    let mut cells = [0; CELLS];
    if diamond::diamond(record, &mut cells) != ACCEPTED {
        return;
    }
    let end = rng.pick(&[550, 640, 730, 820, 910, 1_000, 1_090]) * record[CYCLE];
    let wanted = i64::from(end) + i64::from(rng.within(0, 2)) - 1;
    let change = wanted - i64::from(cells[BEST]);
    let ramps = [movement_entry(3, 0, 3), EAST + movement_entry(2, 0, 3)];
    let entering = [LOST_IN_WEST, LOST_IN_EAST, ramps[0], ramps[1]];
    shift(record, rng.pick(&entering), change, 20_000);
}

/// No traffic but what enters the west junction and leaves its ramp: all plans then tie.
fn one_sided(rng: &mut Rng, record: &mut Record) {
    let kept = [0, 3];
    for m in (0..24).filter(|m| !(kept.contains(&(m / 3)) && m % 3 > 0)) {
        let half = if m < 12 { 0 } else { EAST };
        record[half + movement_entry(0, m % 12, 1)] = 0;
    }
    for a in 0..8 {
        let half = if a < 4 { 0 } else { EAST };
        record[half + approach_entry(a % 4, 1)] = 0;
    }
    record[TRAVEL_TIME] = rng.pick(&[0, 0, 1, 5_000]);
}

/// An acceptable record.
pub fn acceptable_record(rng: &mut Rng) -> Record {
    let west = acceptable(rng);
    let east = match rng.once_in(10) {
        true => west,
        false => acceptable(rng),
    };
    let mut record = joined(&west, &east);
    record[TRAVEL_TIME] = travel(rng);
    match rng.below(24) {
        0 => one_sided(rng, &mut record),
        1..=5 => to_tie(rng, &mut record),
        6..=9 => to_letter_end(rng, &mut record),
        _ => {}
    }
    put_storages(rng, &mut record);
    if rng.once_in(40) {
        on_the_point(rng, &mut record);
    }
    record
}

// ---------------------------------------------------------------- refused records

/// One of the record's own five numbers at, past or far past a limit.
fn spoil_own(rng: &mut Rng, record: &mut Record) {
    let place = match rng.once_in(3) {
        true => TRAVEL_TIME,
        false => STORAGES + rng.below(4),
    };
    let most = if place == TRAVEL_TIME { 60_000 } else { 999 };
    record[place] = match rng.below(3) {
        0 => any_number(rng),
        _ => rng.pick(&[0, 1, most, most + 1]),
    };
}

/// Another cycle in one of the junctions, in its range or not.
fn spoil_cycle(rng: &mut Rng, record: &mut Record) {
    let place = rng.pick(&[CYCLE, EAST + CYCLE]);
    record[place] = match rng.below(4) {
        0 => rng.pick(&[29, 241, 0, BLANK]),
        1 => record[place].wrapping_add(1),
        2 => record[place].wrapping_sub(1),
        _ => rng.within(30, 240),
    };
}

/// Small faults in one junction or both, and in what is the record's own.
fn nearly_record(rng: &mut Rng) -> Record {
    let (west, east) = match rng.below(4) {
        0 => (nearly(rng), acceptable(rng)),
        1 => (acceptable(rng), nearly(rng)),
        2 => (nearly(rng), nearly(rng)),
        _ => (acceptable(rng), acceptable(rng)),
    };
    let mut record = joined(&west, &east);
    record[TRAVEL_TIME] = travel(rng);
    put_storages(rng, &mut record);
    if rng.once_in(4) {
        spoil_cycle(rng, &mut record);
    }
    for _ in 0..rng.below(3) {
        spoil_own(rng, &mut record);
    }
    record
}

/// A length around those that matter.
pub fn any_length(rng: &mut Rng) -> usize {
    let corners = [
        0, 1, 28, 29, 30, 93, 167, 186, 189, 190, 191, 192, 221, 382,
    ];
    match rng.once_in(4) {
        true => rng.below(400),
        false => rng.pick(&corners),
    }
}

/// A record of any length: mostly acceptable, then spoilt, then anything.
pub fn any_record(rng: &mut Rng) -> Vec<u32> {
    match rng.below(16) {
        0..=9 => acceptable_record(rng).to_vec(),
        10..=13 => nearly_record(rng).to_vec(),
        14 => any_numbers(rng, RECORD),
        _ => {
            let mut record = acceptable_record(rng).to_vec();
            record.resize(any_length(rng), 1);
            record
        }
    }
}
