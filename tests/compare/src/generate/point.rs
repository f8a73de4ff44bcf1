//! Single points to try: junctions without their shared lanes, ramps that go left and right, rights that decide or
//! all but do, the starting entries with something typed in, and shared lanes that a junction might have.

use super::{acceptable, measure, spoil_lanes, spoil_range, usual, Entries, Kind, Rng};
use crate::point::{self, CELLS, LAST, START};
use crate::rules::{approach_entry, kind_of, movement_entry, ACCEPTED, CYCLE, ENTRIES, FACTOR};

pub const POINT: Kind = Kind {
    cells: CELLS,
    acceptable: acceptable_point,
    nearly: nearly_point,
    fill: point::fill,
    amend: point::amend,
};

// ---------------------------------------------------------------- acceptable ones

/// Takes the shared lanes away: their lefts get lanes of their own, or there are none.
fn unshare(rng: &mut Rng, e: &mut Entries) {
    for a in 0..4 {
        let left = movement_entry(a, 0, 0);
        if std::mem::take(&mut e[approach_entry(a, 0)]) == 1 {
            match rng.once_in(4) {
                true => e[left + 1] = 0,
                false => e[left] = rng.within(1, 3),
            }
        }
    }
}

/// Two ramps across an arterial: lefts and rights in lanes of their own, throughs now and then where there is a frontage road.
fn ramps(rng: &mut Rng, e: &mut Entries) {
    let first = rng.pick(&[0, 2, 2]);
    let frontage = rng.once_in(4);
    for a in first..first + 2 {
        for turn in [0, 2] {
            let at = movement_entry(a, turn, 0);
            e[at] = e[at].max(1);
        }
        if !frontage {
            let at = movement_entry(a, 1, 0);
            e[at..at + 2].fill(0);
        }
    }
}

/// The ideal flows and lost times that a single point starts from.
fn usual_times(e: &mut Entries) {
    for m in 0..12 {
        let at = movement_entry(0, m, 2);
        e[at..at + 2].copy_from_slice(&START[at..at + 2]);
    }
}

/// Rights so many that they may decide, mostly with a lane of their own.
fn busy_rights(rng: &mut Rng, e: &mut Entries) {
    let a = rng.below(4);
    let at = movement_entry(a, 2, 0);
    e[at] = rng.within(1, 2);
    e[at + 1] = rng.within(300, 2_500);
    e[approach_entry(a, 4)] = rng.within(0, 1);
}

fn filled(e: &Entries) -> Option<[u32; CELLS]> {
    let mut sheet = [0; CELLS];
    (point::fill(e, &mut sheet) == ACCEPTED).then_some(sheet)
}

/// Makes a time by its lost time so much longer, if that stays in its range.
fn lengthen(e: &mut Entries, at: usize, by: i64) {
    let lost = i64::from(e[at]) + by;
    if (0..=20_000).contains(&lost) {
        e[at] = lost as u32;
    }
}

/// Moves a right turn's lost time so that its total is as long as combined, or 1 ms off, where one can.
fn to_tie(rng: &mut Rng, e: &mut Entries) {
    let Some(sheet) = filled(e) else {
        return;
    };
    let beside = i64::from(rng.within(0, 2)) - 1;
    // The total that is nearest is the one most likely moved.
    let apart = |a: usize| i64::from(sheet[LAST + 4]) - i64::from(sheet[LAST + a]);
    let held = (0..4).filter(|&a| sheet[LAST + a] > 0);
    if let Some(a) = held.min_by_key(|&a| apart(a).abs()) {
        lengthen(e, movement_entry(a, 2, 3), apart(a) + beside);
    }
}

/// Moves a lost time so that the ICU falls at or beside a letter's end, where one can.
fn to_letter_end(rng: &mut Rng, e: &mut Entries) {
    let Some(sheet) = filled(e) else {
        return;
    };
    let end = rng.pick(&[550, 640, 730, 820, 910, 1_000, 1_090]) * e[CYCLE];
    let wanted = i64::from(end) + i64::from(rng.within(0, 2)) - 1;
    let by = wanted - i64::from(sheet[LAST + 5]);
    lengthen(e, movement_entry(rng.below(4), rng.below(3), 3), by);
}

/// The starting entries with lanes and volumes of some movements, and any other entries typed in.
fn begun(rng: &mut Rng) -> Entries {
    let mut e = START;
    for m in 0..12 {
        let at = movement_entry(0, m, 0);
        if rng.once_in(3) {
            e[at] = rng.within(1, 4);
            e[at + 1] = usual(rng, 1);
        }
    }
    for _ in 0..rng.below(8) {
        let entry = rng.below(ENTRIES);
        if !matches!(kind_of(entry), 0 | 1 | 6) {
            e[entry] = usual(rng, kind_of(entry));
        }
    }
    e
}

/// An acceptable single point.
pub fn acceptable_point(rng: &mut Rng) -> Entries {
    if rng.once_in(12) {
        return begun(rng);
    }
    let mut e = acceptable(rng);
    unshare(rng, &mut e);
    match rng.below(6) {
        0..=2 => ramps(rng, &mut e),
        3 => busy_rights(rng, &mut e),
        _ => {}
    }
    if rng.once_in(3) {
        usual_times(&mut e);
    }
    if rng.once_in(8) {
        measure(rng, &mut e);
    }
    match rng.below(4) {
        0 => to_letter_end(rng, &mut e),
        1 => to_tie(rng, &mut e),
        _ => {}
    }
    e
}

// ---------------------------------------------------------------- refused ones

/// Shared lanes: of one approach, of some, or as a junction has them; some without left lanes beside them.
fn share(rng: &mut Rng, e: &mut Entries) {
    let (all, first) = (rng.once_in(6), rng.below(4));
    for a in 0..4 {
        if all || a == first || rng.once_in(5) {
            e[approach_entry(a, 0)] = 1;
            if rng.once_in(2) {
                e[movement_entry(a, 0, 0)] = 0;
            }
        }
    }
}

/// A single point with small faults, which may happen to be none, or a junction that may share lanes.
pub fn nearly_point(rng: &mut Rng) -> Entries {
    if rng.once_in(4) {
        return acceptable(rng);
    }
    let mut e = acceptable_point(rng);
    if rng.once_in(3) {
        spoil_range(rng, &mut e);
    }
    if rng.once_in(3) {
        share(rng, &mut e);
    }
    for _ in 0..rng.below(4) {
        spoil_lanes(rng, &mut e);
    }
    if rng.once_in(12) {
        e[movement_entry(0, rng.below(12), FACTOR)] = rng.pick(&[1, 499, 1_001]);
    }
    e
}
