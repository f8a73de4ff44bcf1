//! Inputs to try: junctions full of corners, entries a little wrong and very wrong, sheets of
//! every history, amendments, and study files with every kind of damage.

pub mod diamond;
pub mod open;
pub mod point;

use crate::rules::{self, approach_entry, decay, kind_of, movement_entry, place_today, BY_TABLE};
use crate::rules::{Answer, CELLS, CYCLE, ENTRIES, FACTOR, LAST, LIMITS};
use crate::rules::{OLD_ENTRIES, OLD_SITES, PAIRS, SITES};
use std::sync::OnceLock;

/// A small generator of well mixed numbers, the same run for the same seed.
pub struct Rng(u64);

impl Rng {
    pub fn new(seed: u64) -> Rng {
        Rng(seed)
    }

    pub fn draw(&mut self) -> u64 {
        self.0 = self.0.wrapping_add(0x9E37_79B9_7F4A_7C15);
        let mut z = self.0;
        z = (z ^ (z >> 30)).wrapping_mul(0xBF58_476D_1CE4_E5B9);
        z = (z ^ (z >> 27)).wrapping_mul(0x94D0_49BB_1331_11EB);
        z ^ (z >> 31)
    }

    pub fn number(&mut self) -> u32 {
        (self.draw() >> 32) as u32
    }

    pub fn below(&mut self, end: usize) -> usize {
        ((u128::from(self.draw()) * end as u128) >> 64) as usize
    }

    pub fn within(&mut self, least: u32, most: u32) -> u32 {
        least + self.below((most - least) as usize + 1) as u32
    }

    pub fn pick<T: Copy>(&mut self, from: &[T]) -> T {
        from[self.below(from.len())]
    }

    /// True once in so many times.
    pub fn once_in(&mut self, times: usize) -> bool {
        self.below(times) == 0
    }
}

pub type Entries = [u32; ENTRIES];
pub type Sheet = [u32; CELLS];

/// A kind of sheet: how many cells it has, entries that it takes and that it nearly takes, its calls by the plain rules.
pub struct Kind {
    pub cells: usize,
    pub acceptable: fn(&mut Rng) -> Entries,
    pub nearly: fn(&mut Rng) -> Entries,
    pub fill: fn(&[u32], &mut [u32]) -> Answer,
    pub amend: fn(&mut [u32], u32, u32) -> Answer,
}

pub const JUNCTION: Kind = Kind {
    cells: CELLS,
    acceptable,
    nearly,
    fill: rules::fill,
    amend: rules::amend,
};

// ---------------------------------------------------------------- junctions

const VOLUMES: [u32; 16] = [
    0, 0, 1, 2, 58, 59, 60, 61, 118, 119, 120, 121, 100, 400, 9_998, 9_999,
];

/// A volume up to about so many vehicles, often one at which a rule turns.
fn volume(rng: &mut Rng, most: u32) -> u32 {
    let corner = rng.pick(&VOLUMES);
    match rng.below(5) {
        0 | 1 if corner <= most => corner,
        2 | 3 => rng.within(0, most.min(200)),
        _ => rng.within(0, most),
    }
}

/// Left, through and right lanes and the shared flag of one approach.
fn lanes(rng: &mut Rng) -> [u32; 4] {
    match rng.below(12) {
        0 | 1 => [0, 1, 0, 1],
        2 => [0, rng.within(1, 6), 0, 1],
        3 => [0, rng.within(1, 4), rng.within(0, 2), 1],
        4 => [0, 0, 0, 0],
        5 => [rng.within(1, 3), 0, rng.within(0, 1), 0],
        6 => [0, rng.within(1, 3), rng.within(0, 1), 0],
        7 => [0, 0, rng.within(1, 6), 0],
        8 => [1, 1, 0, 0],
        9 => [rng.within(1, 2), rng.within(1, 3), rng.within(0, 2), 0],
        10 => [0, 1, 1, 1],
        _ => [rng.within(0, 6), rng.within(0, 6), rng.within(0, 6), 0],
    }
}

/// The largest volume of a junction: many quiet ones, so that every letter comes up.
const BUSY: [u32; 6] = [130, 250, 250, 500, 900, 9_999];

/// A measured lane factor: the table's own values and the ends among them, and none.
fn factor(rng: &mut Rng) -> u32 {
    match rng.below(3) {
        0 => BY_TABLE,
        1 => rng.pick(&[500, 501, 885, 908, 952, 971, 999, 1_000]),
        _ => rng.within(500, 1_000),
    }
}

/// A value of the kind within its limits, often at one of its corners.
pub fn usual(rng: &mut Rng, kind: usize) -> u32 {
    let (least, most) = LIMITS[kind];
    if kind == FACTOR {
        return factor(rng);
    }
    match (kind, rng.below(5)) {
        (1, _) => {
            let most = rng.pick(&BUSY);
            volume(rng, most)
        }
        (_, 0) => rng.pick(&[least, most, least + 1, most - 1]),
        (_, 1) => rng.within(least, most),
        (0, _) => rng.within(0, 3),
        (2, _) => rng.pick(&[1_900, 1_900, 1_800, 2_000]),
        (3, _) | (4, _) => rng.pick(&[4_000, 4_000, 0, 3_999, 10_000]),
        (7, _) => rng.pick(&[0, 0, 1, 7, 59, 60, 200]),
        (9, _) => rng.pick(&[16_000, 16_000, 40_000, 0, 25_264]),
        (11, _) => rng.pick(&[120, 120, 90, 60, 100]),
        _ => rng.within(least, most),
    }
}

/// Volumes that the lanes can carry; a T group near 120 vehicles now and then.
fn volumes(rng: &mut Rng, lanes: &[u32; 4], busy: u32) -> [u32; 3] {
    let [left, through, right, shared] = *lanes;
    let mut v = [volume(rng, busy), volume(rng, busy), volume(rng, busy)];
    if rng.once_in(4) {
        v[0] = rng.within(58, 61);
    }
    if rng.once_in(4) {
        v[2] = rng.within(0, 20);
    }
    if rng.once_in(3) {
        let folded = if right == 0 { v[2].min(119) } else { 0 };
        v[2] = if right == 0 { folded } else { v[2] };
        v[1] = rng.within(119, 121) - folded;
    }
    if shared == 1 && rng.once_in(12) {
        // Many rights and few lefts: only here may line 27 go by vST.
        v = [
            rng.within(1, 10),
            rng.within(2_000, 9_999),
            rng.within(5_000, 9_999),
        ];
    }
    if shared == 1 && rng.once_in(12) {
        // Nothing but lefts: the oncoming lefts then go almost unhindered.
        v = [v[0], 0, 0];
    }
    if left == 0 && shared == 0 {
        v[0] = 0;
    }
    if through == 0 {
        v[1] = 0;
    }
    if right == 0 && through == 0 {
        v[2] = 0;
    }
    v
}

fn approach(rng: &mut Rng, e: &mut Entries, a: usize, busy: u32) {
    let lanes = lanes(rng);
    let mut v = volumes(rng, &lanes, busy);
    if rng.once_in(12) {
        v = [0; 3];
    }
    for turn in 0..3 {
        let at = movement_entry(a, turn, 0);
        e[at] = lanes[turn];
        e[at + 1] = v[turn];
        e[at + 2] = usual(rng, 2);
        for kind in 3..5 {
            // Long times in a quiet junction would hide all that its volumes do.
            e[at + kind] = match busy < 500 {
                true => rng.pick(&[4_000, 4_000, 0, 3_000]),
                false => usual(rng, kind),
            };
        }
    }
    for j in 0..5 {
        e[approach_entry(a, j)] = usual(rng, 6 + j);
    }
    e[approach_entry(a, 0)] = lanes[3];
    if rng.once_in(2) {
        e[approach_entry(a, 1)] = 0;
    }
    if !rng.once_in(4) {
        e[approach_entry(a, 4)] = 0;
    }
}

/// People cross and nobody goes straight on: with lefts or without, with through lanes or without, now and then in no time at all.
fn closed_leg(rng: &mut Rng, e: &mut Entries, a: usize) {
    let own = approach_entry(a, 0);
    let lefts = rng.once_in(3);
    for (turn, lanes) in [u32::from(lefts), rng.within(0, 2), 0].into_iter().enumerate() {
        let at = movement_entry(a, turn, 0);
        e[at] = lanes;
        e[at + 1] = 0;
        if rng.once_in(3) {
            e[at + 3..at + 5].fill(0);
        }
    }
    if lefts {
        e[movement_entry(a, 0, 1)] = rng.within(0, 200);
    }
    e[own] = 0;
    e[own + 1] = rng.pick(&[0, 1, 7, 60, 300, 2_000]);
    e[own + 3] = rng.pick(&[0, 500, 4_000, 16_000, 60_000]);
}

/// Lanes of left, through and right with the shared flag, and volumes.
fn put_lanes(e: &mut Entries, a: usize, lanes: [u32; 4], volumes: [u32; 3]) {
    for turn in 0..3 {
        e[movement_entry(a, turn, 0)] = lanes[turn];
        e[movement_entry(a, turn, 1)] = volumes[turn];
    }
    e[approach_entry(a, 0)] = lanes[3];
}

/// Several shared lanes against a quiet approach: the flow behind their lefts is cut once more, and option B goes by it.
fn quiet_across(rng: &mut Rng, e: &mut Entries, a: usize) {
    let lefts = rng.pick(&[59, 60, 90, 200]);
    let volumes = [lefts, rng.within(100, 900), rng.within(0, 90)];
    put_lanes(e, a, [0, rng.within(2, 6), 0, 1], volumes);
    let rights = rng.within(0, 20);
    let volumes = [rng.within(0, 61), rng.within(99, 121) - rights, rights];
    put_lanes(e, a ^ 1, [0, rng.within(1, 3), 0, 1], volumes);
}

/// Lefts that hardly get through in a long cycle: a flow of some 15 vehicles an hour, of which a tenth is much.
fn slowest_lefts(rng: &mut Rng, e: &mut Entries, a: usize) {
    let lefts = rng.within(1, 59);
    match rng.once_in(2) {
        true => put_lanes(e, a, [1, 1, 0, 0], [lefts, rng.within(0, 300), 0]),
        false => put_lanes(e, a, [0, rng.within(1, 2), 0, 1], [lefts, rng.within(0, 9), 0]),
    }
    e[CYCLE] = rng.pick(&[240, 240, 239, 180, 120]);
}

/// A bus gate: ideal flows of about 1,000, where a flow cut to whole vehicles would show most.
fn bus_gate(rng: &mut Rng, e: &mut Entries, a: usize) {
    match rng.below(4) {
        0 => quiet_across(rng, e, a),
        1 => slowest_lefts(rng, e, a),
        _ => {}
    }
    for turn in 0..3 {
        e[movement_entry(a, turn, 2)] = rng.pick(&[1_000, 1_000, 1_001, 1_003, 1_007, 1_009]);
    }
}

fn copy_approach(e: &mut Entries, from: usize, to: usize) {
    let (movements, own) = (movement_entry(from, 0, 0), approach_entry(from, 0));
    e.copy_within(movements..movement_entry(from + 1, 0, 0), movement_entry(to, 0, 0));
    e.copy_within(own..own + 5, approach_entry(to, 0));
}

/// The decay number with its last two terms left out, a slip that hardly ever shows.
fn short_decay(m: u64) -> u64 {
    if m >= 115_200 {
        return 0;
    }
    let (mut term, mut sum) = (1_000_000_000, 1_000_000_000);
    for k in 1..11 {
        term = term * (m % 7_200) / (7_200 * k);
        sum = if k % 2 == 1 { sum - term } else { sum + term };
    }
    (0..m / 7_200).fold(sum, |d, _| d * 367_879_441 / 1_000_000_000)
}

/// Pedestrians and cycles at which a decay number a few billionths off would show.
fn walking_edges() -> &'static [(u32, u32)] {
    static EDGES: OnceLock<Vec<(u32, u32)>> = OnceLock::new();
    let near = |number: u64, step: u64, by: u64| (number + by) % step <= 2 * by;
    let edge = |p: u64, cycle: u64| {
        let blocked = |d: fn(u64) -> u64| 8 * d(p * (cycle - 8)) + 16 * d(4 * p);
        let (often, held) = (decay(2 * p * cycle), blocked(decay));
        let short = held / 1_000_000 != blocked(short_decay) / 1_000_000;
        (often > 100_000 && near(often, 100_000, 3)) || near(held, 1_000_000, 40) || short
    };
    EDGES.get_or_init(|| {
        let all = (1..=2_000).flat_map(|p| (30..=240).map(move |cycle| (p, cycle)));
        let edges = all.filter(|&(p, cycle)| edge(p, cycle));
        edges.map(|(p, cycle)| (p as u32, cycle as u32)).collect()
    })
}

/// Moves a lost time so that the ICU falls at or just past a letter's end, where one can.
fn to_letter_end(rng: &mut Rng, e: &mut Entries) {
    let mut sheet = [0; CELLS];
    if rules::fill(e, &mut sheet) != rules::ACCEPTED {
        return;
    }
    let end = rng.pick(&[550, 640, 730, 820, 910, 1_000, 1_090]) * e[CYCLE];
    let wanted = i64::from(end) + i64::from(rng.within(0, 2)) - 1;
    let change = wanted - i64::from(sheet[LAST + 5]);
    let at = movement_entry(rng.below(4), rng.below(3), 3);
    let lost = i64::from(e[at]) + change;
    if (0..=20_000).contains(&lost) {
        e[at] = lost as u32;
    }
}

/// Lane factors as they were measured: of all movements, of some, of one approach, or of lefts alone, also of those without lanes.
fn measure(rng: &mut Rng, e: &mut Entries) {
    let (way, a) = (rng.below(5), rng.below(4));
    for m in 0..12 {
        let counted = match way {
            0 => true,
            1 => m / 3 == a,
            2 => m % 3 == 0,
            _ => rng.once_in(2),
        };
        if counted {
            e[movement_entry(0, m, FACTOR)] = factor(rng);
        }
    }
}

/// An acceptable junction, with lane factors as they were measured half the time.
pub fn acceptable(rng: &mut Rng) -> Entries {
    let mut e = by_table(rng);
    if rng.once_in(2) {
        measure(rng, &mut e);
        if rng.once_in(3) {
            to_letter_end(rng, &mut e);
        }
    }
    e
}

/// An acceptable junction with the table's lane factors.
pub fn by_table(rng: &mut Rng) -> Entries {
    let mut e = [BY_TABLE; ENTRIES];
    let busy = rng.pick(&BUSY);
    for a in 0..4 {
        approach(rng, &mut e, a, busy);
    }
    e[CYCLE] = usual(rng, 11);
    if rng.once_in(6) {
        let a = rng.below(4);
        closed_leg(rng, &mut e, a);
    }
    if rng.once_in(5) {
        let a = rng.below(4);
        bus_gate(rng, &mut e, a);
    }
    match rng.below(8) {
        // Equal approaches bring equal totals, where the earlier must win.
        0 => (1..4).for_each(|a| copy_approach(&mut e, 0, a)),
        1 => copy_approach(&mut e, 2, 3),
        _ => {}
    }
    if rng.once_in(10) {
        let (walkers, cycle) = rng.pick(walking_edges());
        e[approach_entry(rng.below(4), 1)] = walkers;
        e[CYCLE] = cycle;
    }
    if rng.once_in(3) {
        to_letter_end(rng, &mut e);
    }
    e
}

/// An entry at, past or far past a limit of its kind.
fn spoil_range(rng: &mut Rng, e: &mut Entries) {
    let i = rng.below(ENTRIES);
    e[i] = match rng.below(3) {
        0 => any_number(rng),
        _ => at_limit(rng, kind_of(i)),
    };
}

/// A value at a limit of the kind or just past it; of lane factors also the least that is no 0.
fn at_limit(rng: &mut Rng, kind: usize) -> u32 {
    let (least, most) = LIMITS[kind];
    match kind == FACTOR && rng.once_in(3) {
        true => rng.pick(&[0, 1, 2, 250]),
        false => rng.pick(&[least.wrapping_sub(1), least, most, most + 1]),
    }
}

/// Lanes, a volume or the shared flag changed without a look at the others.
fn spoil_lanes(rng: &mut Rng, e: &mut Entries) {
    let (a, turn) = (rng.below(4), rng.below(3));
    match rng.below(4) {
        0 => e[approach_entry(a, 0)] ^= 1,
        1 => e[movement_entry(a, turn, 0)] = rng.within(0, 1),
        2 => e[movement_entry(a, 1, 0)] = 0,
        _ => e[movement_entry(a, turn, 1)] = rng.within(0, 2),
    }
}

/// A junction with up to four small faults, which may happen to be none.
pub fn nearly(rng: &mut Rng) -> Entries {
    let mut e = acceptable(rng);
    if rng.once_in(3) {
        spoil_range(rng, &mut e);
    }
    for _ in 0..rng.below(4) {
        spoil_lanes(rng, &mut e);
    }
    e
}

/// Any number at all, small ones as often as large ones.
pub fn any_number(rng: &mut Rng) -> u32 {
    match rng.below(6) {
        0 => u32::MAX,
        1 => 0,
        2 => rng.pick(&[1, 1 << 31, (1 << 31) - 1, u32::MAX - 1, 429_497]),
        _ => rng.number() >> rng.below(32),
    }
}

pub fn any_numbers(rng: &mut Rng, length: usize) -> Vec<u32> {
    (0..length).map(|_| any_number(rng)).collect()
}

/// A length around those that matter.
pub fn any_length(rng: &mut Rng) -> usize {
    let corners = [
        0, 1, 80, 81, 82, 92, 93, 94, 165, 167, 174, 175, 176, 185, 186, 187, 205, 209, 213, 220, 221, 222,
        279, 350, 442,
    ];
    match rng.once_in(4) {
        true => rng.below(500),
        false => rng.pick(&corners),
    }
}

/// Entries of any length: mostly acceptable ones, then spoilt ones, then anything.
pub fn any_entries(rng: &mut Rng, kind: &Kind) -> Vec<u32> {
    match rng.below(12) {
        0..=5 => (kind.acceptable)(rng).to_vec(),
        6..=8 => (kind.nearly)(rng).to_vec(),
        9 => any_numbers(rng, ENTRIES),
        10 => {
            let mut e = (kind.acceptable)(rng).to_vec();
            e.resize(any_length(rng), 0);
            e
        }
        _ => {
            let length = any_length(rng);
            any_numbers(rng, length)
        }
    }
}

// ---------------------------------------------------------------- sheets and amendments

/// The sheet of acceptable entries as a fill leaves it.
fn filled(rng: &mut Rng, kind: &Kind) -> Vec<u32> {
    let mut sheet = vec![0; kind.cells];
    (kind.fill)(&(kind.acceptable)(rng), &mut sheet);
    sheet
}

/// An amendment: mostly a fair value of any entry, now and then a bad value or place.
pub fn amendment(rng: &mut Rng) -> (u32, u32) {
    let entry = match rng.below(8) {
        0 => rng.within(approach_entry(0, 0) as u32, CYCLE as u32),
        1 => CYCLE as u32,
        _ => rng.below(ENTRIES) as u32,
    };
    let kind = kind_of(entry as usize);
    let value = match rng.below(12) {
        0 => at_limit(rng, kind),
        1 => any_number(rng),
        _ => usual(rng, kind),
    };
    match rng.once_in(25) {
        true => (
            rng.pick(&[93, 94, 174, 175, 185, 220, 221, u32::MAX, u32::MAX - 92]),
            value,
        ),
        false => (entry, value),
    }
}

/// A sheet whose entries an amendment may judge and whose other cells hold anything.
fn rubbish(rng: &mut Rng, kind: &Kind) -> Vec<u32> {
    let mut sheet = any_numbers(rng, kind.cells);
    let entries = match rng.below(4) {
        0 => (kind.nearly)(rng),
        _ => (kind.acceptable)(rng),
    };
    sheet[..ENTRIES].copy_from_slice(&entries);
    sheet
}

/// A sheet that has been filled and amended and then had some cells scribbled over.
fn worn(rng: &mut Rng, kind: &Kind) -> Vec<u32> {
    let mut sheet = filled(rng, kind);
    for _ in 0..rng.below(6) {
        let (entry, value) = amendment(rng);
        (kind.amend)(&mut sheet, entry, value);
    }
    for _ in 0..rng.below(4) {
        let at = ENTRIES + rng.below(kind.cells - ENTRIES);
        sheet[at] = any_number(rng);
    }
    sheet
}

/// A sheet of any history, now and then of the wrong length.
pub fn any_sheet(rng: &mut Rng, kind: &Kind) -> Vec<u32> {
    match rng.below(16) {
        0..=5 => filled(rng, kind),
        6..=9 => worn(rng, kind),
        10..=13 => rubbish(rng, kind),
        14 => any_numbers(rng, kind.cells),
        _ => {
            let mut sheet = filled(rng, kind);
            sheet.resize(any_length(rng), 0);
            sheet
        }
    }
}

/// A sheet with one wrong entry, mostly out of range, and the amendment that puts it right.
pub fn repairable(rng: &mut Rng, kind: &Kind) -> (Vec<u32>, u32, u32) {
    let mut sheet = rubbish(rng, kind);
    // A shared lane may be in range and wrong all the same.
    let shared = rng.once_in(4);
    let entry = match shared {
        true => approach_entry(rng.below(4), 0),
        false => rng.below(ENTRIES),
    };
    let good = sheet[entry];
    sheet[entry] = if shared { 1 } else { any_number(rng) };
    (sheet, entry as u32, good)
}

// ---------------------------------------------------------------- study files

/// How many sites a file should have: few, or about the most there may be.
pub fn any_count(rng: &mut Rng) -> usize {
    match rng.below(10) {
        0 => 0,
        1 => rng.pick(&[SITES - 1, SITES, 100]),
        _ => rng.within(1, 6) as usize,
    }
}

/// The entries of a site, bad ones among them.
fn site(rng: &mut Rng) -> Entries {
    match rng.below(6) {
        0 => nearly(rng),
        1 => std::array::from_fn(|_| any_number(rng)),
        _ => acceptable(rng),
    }
}

/// The entries of so many sites.
pub fn sites(rng: &mut Rng, count: usize) -> Vec<u32> {
    (0..count).flat_map(|_| site(rng)).collect()
}

/// The same without their lane factors, as sites stood before those were measured.
fn old_sites(rng: &mut Rng, count: usize) -> Vec<u32> {
    let narrowed = |e: Entries| std::array::from_fn::<u32, OLD_ENTRIES, _>(|i| e[place_today(i)]);
    (0..count).flat_map(|_| narrowed(site(rng))).collect()
}

/// A file laid out by hand, so that it may have more sites than are allowed.
fn laid_out_as(opening: &[u8; 4], size: usize, entries: &[u32]) -> Vec<u8> {
    let k = entries.len() / size;
    let mut file = opening.to_vec();
    file.extend((k as u32).to_le_bytes());
    for j in 0..k {
        file.extend(((8 + 4 * k + 4 * size * j) as u32).to_le_bytes());
    }
    entries
        .iter()
        .for_each(|entry| file.extend(entry.to_le_bytes()));
    file
}

/// A file of today, of blocks of 93 numbers.
pub fn laid_out(entries: &[u32]) -> Vec<u8> {
    laid_out_as(b"ICUT", ENTRIES, entries)
}

/// A file of before, of blocks of 81.
pub fn laid_out_before(entries: &[u32]) -> Vec<u8> {
    laid_out_as(b"ICUS", OLD_ENTRIES, entries)
}

/// Puts a number where a field of the file stands, if the file reaches so far.
fn put(file: &mut [u8], at: usize, number: u32) {
    if let Some(field) = file.get_mut(at..at + 4) {
        field.copy_from_slice(&number.to_le_bytes());
    }
}

/// How many bytes a block has in a file with this opening.
fn block_bytes(file: &[u8]) -> usize {
    match file.get(..4) {
        Some(b"ICUS") => 4 * OLD_ENTRIES,
        _ => 4 * ENTRIES,
    }
}

/// Lengths at and around the ends of the file's fields.
fn cut_length(rng: &mut Rng, file: &[u8]) -> usize {
    let k = rules::study_count(file) as usize;
    let ends = [
        0,
        4,
        8,
        8 + 4 * k,
        8 + 4 * k + block_bytes(file),
        file.len(),
        8 + 4 * rng.below(k + 1),
    ];
    match rng.once_in(3) {
        true => rng.below(file.len() + 1),
        false => (rng.pick(&ends) + rng.below(5))
            .saturating_sub(2)
            .min(file.len()),
    }
}

/// The opening of the other kind, or one that differs from a kind's by a bit.
fn other_opening(rng: &mut Rng, file: &[u8]) -> u32 {
    let (before, today) = (u32::from_le_bytes(*b"ICUS"), u32::from_le_bytes(*b"ICUT"));
    let other = match file.get(..4) {
        Some(b"ICUS") => today,
        _ => before,
    };
    let bit = 1 << rng.below(32);
    rng.pick(&[other, before ^ bit, today ^ bit])
}

/// One kind of damage to a file.
fn damage(rng: &mut Rng, file: &mut Vec<u8>) {
    let k = rules::study_count(file) as usize;
    let anywhere = rng.below(file.len() + 1);
    match rng.below(8) {
        0 => file.truncate(cut_length(rng, file)),
        1 => file.extend((0..=rng.below(400)).map(|i| i as u8)),
        2 => {
            let opening = other_opening(rng, file);
            put(file, 0, opening);
        }
        3 => {
            let (more, less) = (k as u32 + 1, (k as u32).wrapping_sub(1));
            let counts = [more, less, 165, 166, 180, 181, u32::MAX];
            put(file, 4, rng.pick(&counts));
        }
        4 | 5 => {
            let j = rng.below(k.max(1));
            let right = (8 + 4 * k + block_bytes(file) * j) as u32;
            let wrong = [
                right ^ (1 << rng.below(32)),
                right + 4,
                right - 4,
                0,
                u32::MAX,
            ];
            put(file, 8 + 4 * j, rng.pick(&wrong));
        }
        6 => put(file, anywhere / 4 * 4, rng.number()),
        _ => put(file, anywhere, rng.number()),
    }
}

/// A file of either kind, well laid out.
fn good_file(rng: &mut Rng) -> Vec<u8> {
    let count = any_count(rng);
    match rng.below(5) {
        0 | 1 => {
            // From 166 to 180 sites only a file of before may have.
            let more = if count >= SITES - 1 { rng.below(16) } else { 0 };
            laid_out_before(&old_sites(rng, count + more))
        }
        _ => laid_out(&sites(rng, count)),
    }
}

/// Either kind's opening and some small bytes.
fn opening_and_bytes(rng: &mut Rng) -> Vec<u8> {
    let mut file = rng.pick(&[b"ICUS", b"ICUT"]).to_vec();
    file.extend((0..rng.below(40)).map(|_| rng.number() as u8 & 1));
    file
}

/// About as many sites as a kind may have, now and then blocks of the other kind's length.
fn about_full(rng: &mut Rng) -> Vec<u8> {
    match rng.below(6) {
        0 => laid_out_as(b"ICUS", ENTRIES, &[7; 2 * ENTRIES]),
        1 => laid_out_as(b"ICUT", OLD_ENTRIES, &[7; 2 * OLD_ENTRIES]),
        2 | 3 => laid_out_before(&vec![7; OLD_ENTRIES * (OLD_SITES + rng.below(4))]),
        _ => laid_out(&vec![7; ENTRIES * (SITES + rng.below(4))]),
    }
}

/// A study file: a good one, a damaged one, one with too many sites, or any bytes at all.
pub fn any_file(rng: &mut Rng) -> Vec<u8> {
    match rng.below(20) {
        0 => {
            let length = rng.below(700);
            (0..length).map(|_| rng.number() as u8).collect()
        }
        1 => opening_and_bytes(rng),
        2 => about_full(rng),
        3..=10 => good_file(rng),
        _ => {
            let mut file = good_file(rng);
            for _ in 0..=rng.below(3) {
                damage(rng, &mut file);
            }
            file
        }
    }
}

/// A site's number: one the file has, the first it lacks, or far beyond.
pub fn any_site(rng: &mut Rng, file: &[u8]) -> u32 {
    let k = rules::study_count(file);
    let beyond = [
        k,
        k + 1,
        164,
        165,
        166,
        179,
        180,
        181,
        1 << 30,
        u32::MAX,
        u32::MAX / 324 + 1,
        u32::MAX / 372 + 1,
    ];
    match k > 0 && !rng.once_in(4) {
        true => rng.within(0, k - 1),
        false => rng.pick(&beyond),
    }
}

/// Both picks of a filled sheet.
pub fn picks(sheet: &[u32]) -> [usize; 2] {
    [sheet[PAIRS + 3] as usize, sheet[PAIRS + 7] as usize]
}
