//! Chapter 7 in plain Rust: the sheet of a single point interchange, whose lefts are all protected and share no lane.

use crate::rules::{approach_entry, approach_of, judge_sharing, kind_of, movement_entry};
use crate::rules::{letter, lines, protected_lines, refused, CROSS, FREE_RIGHT, REACHED};
use crate::rules::{Answer, ACCEPTED, CYCLE, ENTRIES, ENTRY, PROTECTED_LINES, SIZE};

/// A sheet: the entries, lines 1 to 18 of each approach, the protected totals of both pairs, the last eight.
pub const CELLS: usize = 175;
pub const LINES: usize = PROTECTED_LINES;
pub const FIRST_LINE: usize = ENTRIES;
pub const TOTALS: usize = 165;
pub const LAST: usize = 167;

pub type Sheet = [u32; CELLS];
type Lines = [[u32; LINES]; 4];

// ---------------------------------------------------------------- entries

/// What a single point starts from: flows of 2,000, longer lost times for lefts, a cycle of 120 s, and no lane.
pub const START: [u32; ENTRIES] = starting_entries();

const fn starting_entries() -> [u32; ENTRIES] {
    let mut e = [0; ENTRIES];
    let mut m = 0;
    while m < 12 {
        e[movement_entry(0, m, 2)] = 2_000;
        e[movement_entry(0, m, 3)] = if m % 3 == 0 { 8_000 } else { 6_000 };
        m += 1;
    }
    e[CYCLE] = 120;
    e
}

/// Writes the starting entries.
pub fn start(entries: &mut [u32]) -> Answer {
    if entries.len() != ENTRIES {
        return refused(SIZE, 0);
    }
    entries.copy_from_slice(&START);
    ACCEPTED
}

/// As a junction's, but that SHARED is for any shared lane.
pub fn judge(entries: &[u32]) -> Answer {
    judge_sharing(entries, |e, a| e[approach_entry(a, 0)] == 1)
}

// ---------------------------------------------------------------- totals

/// The larger sum of one approach's lefts and the other's throughs.
fn protected(line: &Lines, a: usize, b: usize) -> u32 {
    (line[a][15] + line[b][16]).max(line[b][15] + line[a][16])
}

/// A right turn with the cross through and the oncoming left that it waits for, unless it is free.
fn right_total(entries: &[u32; ENTRIES], line: &Lines, a: usize) -> u32 {
    if line[a][2] == 0 {
        return 0;
    }
    match entries[approach_entry(a, 4)] {
        1 => line[a][17],
        _ => line[a][17] + line[CROSS[a]][16] + line[a ^ 1][15],
    }
}

/// The whole sheet of entries already found acceptable.
fn work_out(entries: &[u32; ENTRIES], sheet: &mut Sheet) {
    let line: Lines = std::array::from_fn(|a| protected_lines(entries, a));
    let totals = [protected(&line, 0, 1), protected(&line, 2, 3)];
    let rights: [u32; 4] = std::array::from_fn(|a| right_total(entries, &line, a));
    let combined = totals[0] + totals[1];
    let required = rights.iter().fold(combined, |most, &right| most.max(right));
    let icu = required.div_ceil(entries[CYCLE]);
    sheet[..ENTRIES].copy_from_slice(entries);
    for a in 0..4 {
        sheet[FIRST_LINE + LINES * a..][..LINES].copy_from_slice(&line[a]);
    }
    sheet[TOTALS..LAST].copy_from_slice(&totals);
    sheet[LAST..LAST + 4].copy_from_slice(&rights);
    sheet[LAST + 4..].copy_from_slice(&[combined, required, icu, letter(icu)]);
}

// ---------------------------------------------------------------- fill and amend

/// Judges the entries and writes the 175 cells; nothing is written on a refusal.
pub fn fill(entries: &[u32], sheet: &mut [u32]) -> Answer {
    let (Ok(entries), Ok(sheet)) = (entries.try_into(), sheet.try_into()) else {
        return refused(SIZE, 0);
    };
    let entries: &[u32; ENTRIES] = entries;
    let answer = judge(entries);
    if answer == ACCEPTED {
        work_out(entries, sheet);
    }
    answer
}

/// What a junction's entry reaches, as far as this sheet has it: lines up to 18, and the pair's one total for its cells.
fn copy_reached(sheet: &mut Sheet, fresh: &Sheet, entry: usize) {
    sheet[entry] = fresh[entry];
    if entry == CYCLE {
        sheet[FIRST_LINE..].copy_from_slice(&fresh[FIRST_LINE..]);
        return;
    }
    let (kind, a) = (kind_of(entry), approach_of(entry));
    let reached = REACHED[kind] & lines(1, LINES as u32);
    for k in (0..LINES).filter(|k| reached >> k & 1 == 1) {
        let at = FIRST_LINE + LINES * a + k;
        sheet[at] = fresh[at];
    }
    if kind != FREE_RIGHT {
        sheet[TOTALS + a / 2] = fresh[TOTALS + a / 2];
    }
    sheet[LAST..].copy_from_slice(&fresh[LAST..]);
}

/// Judges the entries as they would stand, fills afresh and takes over what the entry reaches.
pub fn amend(sheet: &mut [u32], entry: u32, value: u32) -> Answer {
    let Ok(sheet) = <&mut Sheet>::try_from(sheet) else {
        return refused(SIZE, 0);
    };
    if entry as usize >= ENTRIES {
        return refused(ENTRY, 0);
    }
    let mut entries = [0; ENTRIES];
    entries.copy_from_slice(&sheet[..ENTRIES]);
    entries[entry as usize] = value;
    let answer = judge(&entries);
    if answer == ACCEPTED {
        let mut fresh = [0; CELLS];
        work_out(&entries, &mut fresh);
        copy_reached(sheet, &fresh, entry as usize);
    }
    answer
}
