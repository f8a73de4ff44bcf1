//! What is told: the counts at the end, and a difference with its input and both outputs.

use crate::lent::{Canary, Lent};
use compare::generate::picks;
use compare::rules::{self, Answer, ACCEPTED, BLANK, ENTRIES, FIRST_LINE, LAST, LINES, PAIRS};
use compare::rules::{approach_entry, kind_of, movement_entry, BY_TABLE, CYCLE, FACTOR, SITES};
use compare::rules::{NOLANE, RANGE, SHARED};
use compare::{diamond, open, point};
use std::collections::BTreeMap;
use std::fmt::{Debug, Write};

const NAMES: [&str; 11] = [
    "accepted", "SIZE", "ENTRY", "RANGE", "SHARED", "NOLANE", "FILE", "STORE", "TRAVEL", "OWNER",
    "FULL",
];
const APPROACHES: [&str; 4] = ["EB", "WB", "NB", "SB"];
const LAST_EIGHT: [&str; 8] = [
    "EBR", "WBR", "NBR", "SBR", "combined", "required", "ICU", "letter",
];

/// How often each answer, and each turn of the rules, came up.
#[derive(Default)]
pub struct Tally {
    answers: BTreeMap<(&'static str, u32), u64>,
    letters: [u64; 8],
    picked: [u64; 3],
    blanks: [u64; 2],
    crossed: [u64; 2],
    measured: Measured,
    studies: Studies,
    diamonds: Diamonds,
    opens: Opens,
    points: Points,
}

/// Lane factors that were measured, by the lanes that they were measured of; shared lanes whose lefts' factor decides.
#[derive(Default)]
struct Measured {
    one_lane: u64,
    more_lanes: u64,
    shared_left: u64,
    no_lane: u64,
    decides: u64,
}

/// Study files of both kinds, today's first: good ones, and refused ones with the kind's opening.
#[derive(Default)]
struct Studies {
    good: [u64; 2],
    refused: [u64; 2],
    no_opening: u64,
    over: u64,
}

/// The turns that interchanges took.
#[derive(Default)]
struct Diamonds {
    letters: [u64; 8],
    allowed: [u64; 3],
    picked: [u64; 3],
    ties: [u64; 2],
    near: [u64; 2],
    equal: u64,
}

/// The turns that steps in open studies took.
#[derive(Default)]
struct Opens {
    places: [u64; 3],
    full_and_bad: u64,
    strange: [u64; 4],
    mended: u64,
    read: [u64; 2],
}

/// The turns that single points took.
#[derive(Default)]
struct Points {
    letters: [u64; 8],
    decided: [u64; 3],
    rights: [u64; 4],
    ties: [u64; 3],
    crossed: u64,
    junctions: [u64; 2],
    shared_alone: u64,
    typed_off: u64,
}

impl Tally {
    pub fn answered(&mut self, call: &'static str, answer: Answer) {
        *self.answers.entry((call, answer.number)).or_default() += 1;
    }

    /// Counts the turns that a filled sheet took.
    pub fn filled(&mut self, sheet: &[u32]) {
        self.letters[sheet[LAST + 7] as usize & 7] += 1;
        picks(sheet)
            .into_iter()
            .for_each(|pick| self.picked[pick % 3] += 1);
        for a in 0..4 {
            for option in 0..2 {
                let cell = sheet[FIRST_LINE + LINES * a + 22 + option];
                self.blanks[option] += u64::from(cell == BLANK);
            }
            let line = |k: usize| sheet[FIRST_LINE + LINES * a + k - 1];
            let crossed = line(2) == 0 && line(17) > 0;
            self.crossed[0] += u64::from(crossed && line(1) > 0);
            self.crossed[1] += u64::from(crossed && line(1) == 0);
        }
        (0..12).for_each(|m| self.factor(sheet, m / 3, m % 3));
    }

    /// Counts a measured lane factor of a filled sheet, by the lanes that it is for.
    fn factor(&mut self, sheet: &[u32], a: usize, turn: usize) {
        let entry = |kind: usize| sheet[movement_entry(a, turn, kind)];
        let line = |k: usize| sheet[FIRST_LINE + LINES * a + k - 1];
        if entry(FACTOR) == BY_TABLE {
            return;
        }
        let shared = turn == 0 && sheet[approach_entry(a, 0)] == 1;
        let counts = &mut self.measured;
        match (entry(0), shared) {
            (0, true) => counts.shared_left += 1,
            (0, false) => counts.no_lane += 1,
            (1, _) => counts.one_lane += 1,
            _ => counts.more_lanes += 1,
        }
        if shared {
            let passing = 10_000 * u64::from(entry(1)) * u64::from(sheet[CYCLE]);
            let alone = passing.div_ceil(u64::from(line(9)));
            counts.decides += u64::from(line(27) > line(14) && alone == u64::from(line(27)));
        }
    }

    /// Counts a study file by its opening, and whether it is good.
    #[cfg_attr(not(feature = "study"), allow(dead_code))]
    pub fn study(&mut self, file: &[u8]) {
        let kind = match file.get(..4) {
            Some(b"ICUT") => 0,
            Some(b"ICUS") => 1,
            _ => {
                self.studies.no_opening += 1;
                return;
            }
        };
        match rules::study_check(file) {
            ACCEPTED => self.studies.good[kind] += 1,
            _ => self.studies.refused[kind] += 1,
        }
        self.studies.over += u64::from(rules::study_count(file) as usize > SITES);
    }

    /// Counts the turns that an accepted record took.
    #[cfg_attr(not(feature = "diamond"), allow(dead_code))]
    pub fn interchange(&mut self, record: &diamond::Record, cells: &[u32]) {
        let counts = &mut self.diamonds;
        let [leading, lagging, lead_lag] = [0, 1, 2].map(|plan| cells[diamond::PLANS + plan]);
        counts.letters[cells[diamond::CELLS - 1] as usize & 7] += 1;
        counts.picked[cells[diamond::PICK] as usize % 3] += 1;
        let allowed = match (lagging, lead_lag) {
            (BLANK, BLANK) => 0,
            (BLANK, _) => 1,
            _ => 2,
        };
        counts.allowed[allowed] += 1;
        if allowed > 0 {
            counts.ties[allowed - 1] += u64::from(leading == lead_lag);
            counts.near[0] += u64::from(leading + 1 == lead_lag);
            counts.near[1] += u64::from(leading == lead_lag + 1);
        }
        for storage in 0..4 {
            // No other ratio of numbers in range is 1 exactly.
            let n = diamond::per_cycle(record, storage);
            let equal = n == 2_250_000 && record[diamond::STORAGES + storage] == 657;
            counts.equal += u64::from(equal);
        }
    }

    /// Counts where an add went, and the bad entries that came to a full study.
    #[cfg_attr(not(feature = "open"), allow(dead_code))]
    pub fn added(&mut self, owners: &[u32], answer: Answer) {
        const LAST: usize = open::PLACES - 1;
        match (open::lowest_free(owners), answer.number) {
            (Some(0), 0) => self.opens.places[0] += 1,
            (Some(LAST), 0) => self.opens.places[2] += 1,
            (Some(_), 0) => self.opens.places[1] += 1,
            (None, RANGE | SHARED | NOLANE) => self.opens.full_and_bad += 1,
            _ => {}
        }
    }

    /// Counts why an office had no site where it asked for one.
    #[cfg_attr(not(feature = "open"), allow(dead_code))]
    pub fn had_none(&mut self, owners: &[u32], office: u32, site: u32) {
        let why = match owners.get(site as usize) {
            _ if office == open::FREE => 0,
            None => 1,
            Some(&open::FREE) => 2,
            Some(_) => 3,
        };
        self.opens.strange[why] += 1;
    }

    /// Counts a block that an amendment made acceptable.
    #[cfg_attr(not(feature = "open"), allow(dead_code))]
    pub fn amended(&mut self, before: &[u32]) {
        self.opens.mended += u64::from(rules::judge(before) != ACCEPTED);
    }

    /// Counts a site that was read, by whether this run had changed it before.
    #[cfg_attr(not(feature = "open"), allow(dead_code))]
    pub fn read(&mut self, changed: bool) {
        self.opens.read[usize::from(changed)] += 1;
    }

    /// Counts the turns that a single point took; one that is refused for a lane that its junction may share.
    #[cfg_attr(not(feature = "point"), allow(dead_code))]
    pub fn point(&mut self, entries: &[u32], answer: Answer, sheet: &[u32]) {
        match answer.number {
            0 => self.filled_point(sheet),
            SHARED => self.points.shared_alone += u64::from(rules::judge(entries) == ACCEPTED),
            _ => {}
        }
    }

    fn filled_point(&mut self, sheet: &[u32]) {
        let counts = &mut self.points;
        let last = &sheet[point::LAST..];
        let (combined, required) = (last[4], last[5]);
        counts.letters[last[7] as usize & 7] += 1;
        match (0..4).find(|&a| last[a] == required && required > combined) {
            None => counts.decided[0] += 1,
            Some(a) => {
                let free = sheet[approach_entry(a, 4)] == 1;
                counts.decided[1 + usize::from(free)] += 1;
                counts.rights[a] += 1;
            }
        }
        let longest = last[..4].iter().copied().max().unwrap_or(0);
        let apart = i64::from(longest) - i64::from(combined);
        if longest > 0 && apart.abs() <= 1 {
            counts.ties[(1 + apart) as usize] += 1;
        }
        let line = |a: usize, k: usize| sheet[point::FIRST_LINE + point::LINES * a + k - 1];
        let crossed = |a: &usize| line(*a, 2) == 0 && line(*a, 17) > 0;
        counts.crossed += (0..4).filter(crossed).count() as u64;
        let mut junction = [0; rules::CELLS];
        if rules::fill(&sheet[..ENTRIES], &mut junction) == ACCEPTED {
            counts.junctions[usize::from(picks(&junction) != [0, 0])] += 1;
        }
    }

    /// Counts a shared lane that was typed off.
    #[cfg_attr(not(feature = "point"), allow(dead_code))]
    pub fn point_amended(&mut self, before: &[u32], (entry, value): (u32, u32), answer: Answer) {
        const SHARED_LANE: usize = 6;
        let entry = entry as usize;
        let off = answer == ACCEPTED && kind_of(entry) == SHARED_LANE && value == 0;
        self.points.typed_off += u64::from(off && before[entry] == 1);
    }

    fn print_points(&self) {
        let counts = &self.points;
        println!("single points' letters A to H: {:?}", counts.letters);
        println!(
            "decided by combined, a right that waits, a free one: {:?}; by EBR, WBR, NBR, SBR: {:?}",
            counts.decided, counts.rights
        );
        println!(
            "longest right 1 ms less than combined, as long, 1 ms more: {:?}; crossed with nobody going through: {}",
            counts.ties, counts.crossed
        );
        println!(
            "junctions of the same entries protected throughout, otherwise: {:?}",
            counts.junctions
        );
        println!(
            "SHARED for a lane that a junction may share: {}; shared lanes typed off: {}",
            counts.shared_alone, counts.typed_off
        );
    }

    fn print_opens(&self) {
        let counts = &self.opens;
        println!(
            "added at the first place, between, at the last: {:?}; bad entries to a full study: {}",
            counts.places, counts.full_and_bad
        );
        println!(
            "OWNER for no office, no such place, a free one, another's: {:?}",
            counts.strange
        );
        println!(
            "bad blocks put right: {}; read as they were lent, as added or amended: {:?}",
            counts.mended, counts.read
        );
    }

    fn print_measured(&self) {
        let counts = &self.measured;
        println!(
            "lane factors measured of one lane {}, of more {}, of a shared lane's lefts {} (deciding line 27: {}), of no lane {}",
            counts.one_lane, counts.more_lanes, counts.shared_left, counts.decides, counts.no_lane
        );
    }

    fn print_studies(&self) {
        let counts = &self.studies;
        println!(
            "study files of today and of before, good {:?}, refused {:?}; with neither opening: {}; of before with more than {SITES} sites: {}",
            counts.good, counts.refused, counts.no_opening, counts.over
        );
    }

    fn print_diamonds(&self) {
        let counts = &self.diamonds;
        println!("diamonds' letters A to H: {:?}", counts.letters);
        println!(
            "allowed leading alternate alone, lead-lag besides, all: {:?}",
            counts.allowed
        );
        println!(
            "picked leading alternate, lagging, lead-lag: {:?}",
            counts.picked
        );
        println!(
            "leading alternate as long as lead-lag alone, as both: {:?}; 1 ms less, more: {:?}",
            counts.ties, counts.near
        );
        println!("storage ratios of 1 exactly: {}", counts.equal);
    }

    pub fn print(&self) {
        let mut last = "";
        let mut text = String::new();
        for (&(call, number), count) in &self.answers {
            if call != last {
                let _ = write!(text, "{}{call}:", if last.is_empty() { "" } else { "\n" });
                last = call;
            }
            let name = NAMES.get(number as usize).unwrap_or(&"?");
            let _ = write!(text, " {name} {count}");
        }
        println!("{text}");
        println!("letters A to H: {:?}", self.letters);
        println!("picked protected, permitted, split: {:?}", self.picked);
        println!("BLANK in lines 23, 24: {:?}", self.blanks);
        println!("crossed with lefts alone, with nobody driving: {:?}", self.crossed);
        self.print_measured();
        if self.studies.good.iter().sum::<u64>() > 0 {
            self.print_studies();
        }
        if self.diamonds.picked.iter().sum::<u64>() > 0 {
            self.print_diamonds();
        }
        if self.opens.read.iter().sum::<u64>() > 0 {
            self.print_opens();
        }
        if self.points.decided.iter().sum::<u64>() > 0 {
            self.print_points();
        }
    }
}

/// What a cell of a sheet is.
pub fn cell_name(at: usize) -> String {
    match at {
        0..FIRST_LINE => format!("entry {at}"),
        FIRST_LINE..PAIRS => {
            let (a, k) = ((at - FIRST_LINE) / LINES, (at - FIRST_LINE) % LINES + 1);
            format!("{} line {k}", APPROACHES[a])
        }
        PAIRS..LAST => {
            let cells = ["protected", "permitted", "split", "picked"];
            let pair = ["EB-WB", "NB-SB"][(at - PAIRS) / 4];
            format!("{pair} {}", cells[(at - PAIRS) % 4])
        }
        _ => last_name(at, LAST),
    }
}

/// What one of the last eight is.
fn last_name(at: usize, last: usize) -> String {
    LAST_EIGHT
        .get(at - last)
        .map_or_else(|| format!("cell {at}"), |cell| cell.to_string())
}

/// What a cell of a single point's sheet is.
#[cfg_attr(not(feature = "point"), allow(dead_code))]
pub fn point_cell(at: usize) -> String {
    match at {
        0..point::FIRST_LINE => format!("entry {at}"),
        point::FIRST_LINE..point::TOTALS => {
            let line = at - point::FIRST_LINE;
            let (a, k) = (line / point::LINES, line % point::LINES + 1);
            format!("{} line {k}", APPROACHES[a])
        }
        point::TOTALS..point::LAST => {
            format!("{} protected", ["EB-WB", "NB-SB"][at - point::TOTALS])
        }
        _ => last_name(at, point::LAST),
    }
}

/// What a cell of an interchange is.
#[cfg_attr(not(feature = "diamond"), allow(dead_code))]
pub fn diamond_cell(at: usize) -> String {
    const SIDES: [&str; 14] = [
        "EBT", "EBR", "WBL", "WBT", "SBL", "SBT", "SBR", "WBT", "WBR", "EBL", "EBT", "NBL", "NBT",
        "NBR",
    ];
    const PAIRS: [&str; 4] = ["isolated 1", "alternate", "combined", "overlap"];
    const WHOLE: [&str; 7] = [
        "leading alternate",
        "lagging",
        "lead-lag",
        "picked",
        "best",
        "ICU",
        "letter",
    ];
    let way = |east: usize| ["west", "east"][east];
    match at {
        0..14 => format!("{} {}", way(at / 7), SIDES[at]),
        14..22 => format!("{} {}", PAIRS[(at - 14) / 2], way(at % 2)),
        _ => WHOLE
            .get(at - 22)
            .map_or_else(|| format!("cell {at}"), |cell| cell.to_string()),
    }
}

/// What a number among an open study's blocks is.
#[cfg_attr(not(feature = "open"), allow(dead_code))]
pub fn block_entry(at: usize) -> String {
    format!("place {} entry {}", at / ENTRIES, at % ENTRIES)
}

/// The text of a difference, or nothing where the two outcomes agree.
#[cfg_attr(not(feature = "study"), allow(dead_code))]
pub fn compare<T: Canary + Debug>(
    input: &dyn Fn() -> String,
    ours: (Answer, &Lent<T>),
    theirs: (Answer, &Lent<T>),
) -> Result<(), String> {
    compare_named(input, ours, theirs, cell_name)
}

/// The same, with the names of the cells.
pub fn compare_named<T: Canary + Debug>(
    input: &dyn Fn() -> String,
    ours: (Answer, &Lent<T>),
    theirs: (Answer, &Lent<T>),
    name: fn(usize) -> String,
) -> Result<(), String> {
    compare_long(input, ours, theirs, name).map_err(|mut text| {
        let _ = writeln!(text, "rules' output:   {:?}", ours.1.part());
        let _ = writeln!(text, "library's output: {:?}", theirs.1.part());
        text
    })
}

/// The same of lists too long to be shown whole.
pub fn compare_long<T: Canary + Debug>(
    input: &dyn Fn() -> String,
    ours: (Answer, &Lent<T>),
    theirs: (Answer, &Lent<T>),
    name: fn(usize) -> String,
) -> Result<(), String> {
    if ours.0 == theirs.0 && ours.1 == theirs.1 {
        return Ok(());
    }
    let mut text = input();
    let _ = write!(text, "\nrules:   {:?}\nlibrary: {:?}\n", ours.0, theirs.0);
    let pairs = ours.1.part().iter().zip(theirs.1.part());
    for (at, (x, y)) in pairs.enumerate().filter(|(_, (x, y))| x != y) {
        let _ = writeln!(
            text,
            "at {at} ({}): rules {x:?}, library {y:?}",
            name(at)
        );
    }
    if !ours.1.same_around(theirs.1) {
        let _ = writeln!(text, "cells around the lent list were altered");
    }
    Err(text)
}
