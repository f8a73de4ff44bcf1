//! Looks for the junctions whose ICU falls and rises most: small steps from one acceptable junction to the next, kept where they
//! do no worse, from many starts. What is found is made plain, so that it can be worked by hand.

use crate::measure::Rated;
use compare::generate::{by_table, picks, usual, Entries, Rng, Sheet};
use compare::rules::{approach_entry, judge, kind_of, movement_entry, place_today, ACCEPTED, BLANK};
use compare::rules::{CYCLE, ENTRIES, KINDS, LAST, LIMITS, OLD_ENTRIES, PAIRS};

/// A kind of junction, and whether the ICU is to rise or to fall.
struct Goal {
    rise: bool,
    picks_stay: bool,
    everyday: bool,
}

const fn goal(rise: bool, picks_stay: bool, everyday: bool) -> Goal {
    Goal {
        rise,
        picks_stay,
        everyday,
    }
}

const GOALS: [Goal; 8] = [
    goal(false, true, false),
    goal(false, true, true),
    goal(false, false, false),
    goal(false, false, true),
    goal(true, true, false),
    goal(true, true, true),
    goal(true, false, false),
    goal(true, false, true),
];
/// Steps without a gain after which another start is made.
const PATIENCE: u64 = 4_000;
/// Below every score of a junction of the kind that is looked for.
const STRANGE: i64 = i64::MIN / 4;

impl Goal {
    fn name(&self) -> String {
        format!(
            "largest {}, {}, {}",
            if self.rise { "rise" } else { "fall" },
            if self.picks_stay {
                "picks as before"
            } else {
                "a pick changed"
            },
            if self.everyday {
                "ICU before under 150 %"
            } else {
                "any ICU"
            }
        )
    }

    /// How far the ICU moves the right way, by whole tenths of a percent first and then unrounded; how far the junction is from the
    /// kind, if it is none.
    fn score(&self, e: &Entries) -> Option<i64> {
        let rated = Rated::new(e)?;
        let over = match self.everyday {
            true => i64::from(
                rated
                    .icu()
                    .0
                    .saturating_sub(crate::measure::EVERYDAY_END - 1),
            ),
            false => 0,
        };
        let gap = match (self.picks_stay, rated.picks_stay()) {
            (false, true) => nearest(&rated.now),
            (true, false) => 1,
            _ => 0,
        };
        if over + gap > 0 {
            return Some(STRANGE - 1_000 * over - gap);
        }
        let by = |(before, now): (u32, u32)| i64::from(now) - i64::from(before);
        let unrounded = 1_000 * by(rated.required()) / i64::from(e[CYCLE]);
        let moved = 1_000_000_000 * by(rated.icu()) + unrounded;
        Some(if self.rise { moved } else { -moved })
    }
}

/// How far the least total of a pair is from the next, in the pair where that is nearest.
fn nearest(sheet: &Sheet) -> i64 {
    let gap = |pair: usize| {
        let mut totals = [0, 1, 2].map(|plan| i64::from(sheet[PAIRS + 4 * pair + plan]));
        totals.sort_unstable();
        totals[1] - totals[0]
    };
    // A total that is not allowed is as far as can be.
    gap(0).min(gap(1)).clamp(1, i64::from(BLANK))
}

// ---------------------------------------------------------------- steps

/// A number moved by a little or by much, within the limits of its kind.
fn nudged(rng: &mut Rng, number: u32, kind: usize) -> u32 {
    let (least, most) = LIMITS[kind];
    let furthest = 1 << rng.below(12);
    let by = rng.within(1, furthest);
    match rng.once_in(2) {
        true => number.saturating_add(by).min(most),
        false => number.saturating_sub(by).max(least),
    }
}

/// One approach of another junction in place of its own.
fn transplant(rng: &mut Rng, e: &mut Entries) {
    let (other, a) = (by_table(rng), rng.below(4));
    let movements = movement_entry(a, 0, 0)..movement_entry(a + 1, 0, 0);
    for range in [movements, approach_entry(a, 0)..approach_entry(a + 1, 0)] {
        e[range.clone()].copy_from_slice(&other[range]);
    }
}

fn stepped(rng: &mut Rng, e: &Entries) -> Entries {
    let mut next = *e;
    if rng.once_in(60) {
        transplant(rng, &mut next);
        return next;
    }
    for _ in 0..=rng.below(3) {
        let entry = match rng.once_in(8) {
            true => CYCLE,
            // Lanes, volumes and flows more often than times.
            false => match rng.once_in(3) {
                true => place_today(rng.below(OLD_ENTRIES)),
                false => movement_entry(0, rng.below(12), rng.below(3)),
            },
        };
        let kind = kind_of(entry);
        next[entry] = match rng.once_in(4) {
            true => usual(rng, kind),
            false => nudged(rng, next[entry], kind),
        };
    }
    next
}

/// The best junction that so many steps find.
fn climb(rng: &mut Rng, goal: &Goal, steps: u64) -> Option<Entries> {
    let (mut best, mut highest) = (None, 0);
    let (mut at, mut reached, mut stuck) = ([0; ENTRIES], i64::MIN, PATIENCE);
    for _ in 0..steps {
        if stuck >= PATIENCE {
            at = by_table(rng);
            reached = goal.score(&at).unwrap_or(i64::MIN);
            stuck = 0;
        }
        let next = stepped(rng, &at);
        stuck += 1;
        match goal.score(&next) {
            Some(score) if score >= reached => {
                stuck = if score > reached { 0 } else { stuck };
                (at, reached) = (next, score);
            }
            _ => {}
        }
        if reached > highest {
            (best, highest) = (Some(at), reached);
        }
    }
    best
}

// ---------------------------------------------------------------- what is found

/// Plain values of the kinds, the plainest first.
const PLAIN: [&[u32]; KINDS] = [
    &[0, 1, 2, 3],
    &[0, 50, 100, 200, 400, 1_000, 9_999],
    &[1_900, 1_000],
    &[0, 4_000],
    &[0, 4_000],
    &[0],
    &[0],
    &[0],
    &[0],
    &[0, 16_000],
    &[0],
    &[120, 240, 60, 100],
];

/// The same junction with plain values wherever they do no worse.
fn plainer(goal: &Goal, mut e: Entries) -> Entries {
    let mut score = goal.score(&e).unwrap_or(STRANGE);
    // Twice, since a lane can only go after its volume.
    for entry in (0..ENTRIES).rev().chain(0..ENTRIES) {
        for &value in PLAIN[kind_of(entry)] {
            if value == e[entry] {
                break;
            }
            let mut next = e;
            next[entry] = value;
            let Some(found) = goal.score(&next).filter(|&found| found >= score) else {
                continue;
            };
            (e, score) = (next, found);
            break;
        }
    }
    e
}

fn print_entries(e: &Entries) {
    println!("  cycle {} s; lanes, volume, ideal flow, lost time, minimum green of left, through, right; shared, pedestrians, button, time, free", e[CYCLE]);
    for (a, name) in ["EB", "WB", "NB", "SB"].into_iter().enumerate() {
        let turns = [0, 1, 2].map(|turn| {
            let at = movement_entry(a, turn, 0);
            format!(
                "{} {:>4} {} {:>5} {:>5}",
                e[at],
                e[at + 1],
                e[at + 2],
                e[at + 3],
                e[at + 4]
            )
        });
        let [shared, walkers, button, walk, free] = [0, 1, 2, 3, 4].map(|j| e[approach_entry(a, j)]);
        println!(
            "  {name}  {}  |  {shared} {walkers:>4} {button} {walk:>5} {free}",
            turns.join("  |  ")
        );
    }
}

fn print_sheet(title: &str, sheet: &Sheet) {
    let shown = |cell: u32| {
        if cell == BLANK {
            "NA".to_string()
        } else {
            cell.to_string()
        }
    };
    let pair = |at: usize| [0, 1, 2].map(|k| shown(sheet[PAIRS + at + k])).join(" ");
    let rights = [0, 1, 2, 3].map(|k| sheet[LAST + k].to_string()).join(" ");
    let picked = picks(sheet).map(|pick| ["P", "M", "S"][pick % 3]).concat();
    let letter = char::from(b'A' + sheet[LAST + 7] as u8);
    println!(
        "  {title}: EB-WB {}, NB-SB {}, picked {picked}; rights {rights}; combined {}, required {}, ICU {} {letter}",
        pair(0),
        pair(4),
        sheet[LAST + 4],
        sheet[LAST + 5],
        sheet[LAST + 6]
    );
}

/// Each goal's junction, with the sheets' totals before and now.
pub fn print_all(rng: &mut Rng, steps: u64) {
    println!("{steps} steps for each; times in ms, ICU in tenths of a percent; flows in whole vehicles per hour before, in tenths now");
    for goal in &GOALS {
        println!("\n{}", goal.name());
        let Some(found) = climb(rng, goal, steps) else {
            println!("  none found");
            continue;
        };
        let e = plainer(goal, found);
        if let (ACCEPTED, Some(rated)) = (judge(&e), Rated::new(&e)) {
            print_entries(&e);
            print_sheet("before", &rated.before);
            print_sheet("now   ", &rated.now);
        }
    }
}
