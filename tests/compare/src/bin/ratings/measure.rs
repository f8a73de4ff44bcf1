//! A junction rated in both units, and what a set of such junctions shows.

use compare::generate::{picks, Entries, Sheet};
use compare::rules::{fill_in, ACCEPTED, CELLS, FLOW_UNIT, LAST};

/// An ICU, in tenths of a percent, from which on a junction is no everyday one.
pub const EVERYDAY_END: u32 = 1_500;

/// The sheet with flows in whole vehicles per hour, as the rules read before, and the one in their own unit.
pub struct Rated {
    pub before: Sheet,
    pub now: Sheet,
}

impl Rated {
    /// None where the entries are refused.
    pub fn new(e: &Entries) -> Option<Rated> {
        let (mut before, mut now) = ([0; CELLS], [0; CELLS]);
        let first = fill_in::<1>(e, &mut before);
        let second = fill_in::<FLOW_UNIT>(e, &mut now);
        (first == ACCEPTED && second == ACCEPTED).then_some(Rated { before, now })
    }

    fn both(&self, at: usize) -> (u32, u32) {
        (self.before[LAST + at], self.now[LAST + at])
    }

    /// The required time in ms.
    pub fn required(&self) -> (u32, u32) {
        self.both(5)
    }

    /// The ICU in tenths of a percent.
    pub fn icu(&self) -> (u32, u32) {
        self.both(6)
    }

    pub fn letters(&self) -> (u32, u32) {
        self.both(7)
    }

    pub fn picks_stay(&self) -> bool {
        picks(&self.before) == picks(&self.now)
    }

    pub fn everyday(&self) -> bool {
        self.icu().0 < EVERYDAY_END
    }
}

/// The largest fall and the largest rise.
#[derive(Clone, Copy, Default)]
struct Ends<T> {
    fall: T,
    rise: T,
}

impl<T: Copy + Default + PartialOrd + std::ops::Sub<Output = T>> Ends<T> {
    fn add(&mut self, (before, now): (T, T)) {
        if before > now && before - now > self.fall {
            self.fall = before - now;
        }
        if now > before && now - before > self.rise {
            self.rise = now - before;
        }
    }
}

/// What the junctions of a set come to.
#[derive(Clone, Copy, Default)]
pub struct Tally {
    junctions: u64,
    same: u64,
    lower: u64,
    higher: u64,
    icu: Ends<u32>,
    share: Ends<f64>,
    better: u64,
    worse: u64,
    picks: u64,
    required: Ends<u32>,
}

impl Tally {
    pub fn add(&mut self, rated: &Rated) {
        let (icu, letters) = (rated.icu(), rated.letters());
        self.junctions += 1;
        self.same += u64::from(icu.0 == icu.1);
        self.lower += u64::from(icu.0 > icu.1);
        self.higher += u64::from(icu.0 < icu.1);
        self.icu.add(icu);
        if icu.0 > 0 {
            self.share.add((1.0, f64::from(icu.1) / f64::from(icu.0)));
        }
        self.better += u64::from(letters.0 > letters.1);
        self.worse += u64::from(letters.0 < letters.1);
        self.picks += u64::from(!rated.picks_stay());
        self.required.add(rated.required());
    }

    /// A field of each row, in the order of their titles.
    fn fields(&self) -> [String; ROWS.len()] {
        let counted = |number: u64| {
            let share = 100.0 * number as f64 / self.junctions.max(1) as f64;
            format!("{number} ({share:.3} %)")
        };
        [
            self.junctions.to_string(),
            counted(self.same),
            counted(self.lower),
            counted(self.higher),
            self.icu.fall.to_string(),
            self.icu.rise.to_string(),
            format!("{:.3} %", 100.0 * self.share.fall),
            format!("{:.3} %", 100.0 * self.share.rise),
            counted(self.better),
            counted(self.worse),
            counted(self.picks),
            self.required.fall.to_string(),
            self.required.rise.to_string(),
        ]
    }
}

const ROWS: [&str; 13] = [
    "junctions",
    "ICU the same",
    "ICU lower",
    "ICU higher",
    "largest fall, tenths of a percent",
    "largest rise, tenths of a percent",
    "largest fall, of the ICU before",
    "largest rise, of the ICU before",
    "letter better",
    "letter worse",
    "a pick changed",
    "largest fall of the required time, ms",
    "largest rise of the required time, ms",
];
const COLUMNS: [&str; 4] = ["all", "picks stay", "ICU under 150 %", "both"];
/// ICU changes that have a count of their own, those further out counted with the last.
const FURTHEST: i64 = 5;

/// A set in all, and restricted in the ways of the columns; how often each change of the ICU came up, and each letter now.
#[derive(Default)]
pub struct Set {
    tallies: [Tally; COLUMNS.len()],
    changes: [u64; 2 * FURTHEST as usize + 1],
    letters: [u64; 8],
    usual: u64,
}

impl Set {
    pub fn add(&mut self, rated: &Rated) {
        let (stay, everyday) = (rated.picks_stay(), rated.everyday());
        for (tally, counted) in
            self.tallies
                .iter_mut()
                .zip([true, stay, everyday, stay && everyday])
        {
            if counted {
                tally.add(rated);
            }
        }
        let change = i64::from(rated.icu().1) - i64::from(rated.icu().0);
        self.changes[(change.clamp(-FURTHEST, FURTHEST) + FURTHEST) as usize] += 1;
        self.letters[rated.letters().1 as usize & 7] += 1;
        self.usual += u64::from((300..=1_200).contains(&rated.icu().1));
    }

    pub fn print(&self) {
        let row = |title: &str, fields: [&str; COLUMNS.len()]| {
            let text: String = fields.iter().map(|field| format!("{field:>21}")).collect();
            println!("{title:<38}{text}");
        };
        row("", COLUMNS);
        let fields = self.tallies.map(|tally| tally.fields());
        for (at, title) in ROWS.into_iter().enumerate() {
            row(
                title,
                std::array::from_fn(|column| fields[column][at].as_str()),
            );
        }
        println!(
            "letters A to H now: {:?}; ICU from 30 % to 120 %: {}",
            self.letters, self.usual
        );
    }

    /// How many junctions' ICU changed by so many tenths of a percent.
    pub fn print_changes(&self) {
        println!("ICU now less ICU before, tenths of a percent:");
        for (change, count) in (-FURTHEST..=FURTHEST).zip(self.changes) {
            let more = match change.abs() == FURTHEST {
                true if change < 0 => " or less",
                true => " or more",
                false => "",
            };
            println!("{:>10}{:>12}", format!("{change:+}{more}"), count);
        }
    }
}
