//! Filled worksheets: a junction's, and a single point interchange's.

use crate::{sys, Approach, Entries, Entry, Refusal};
use std::fmt;

const BLANK: u32 = u32::MAX;
const FIRST_LINE: usize = Entries::COUNT;

/// Two approaches that face each other.
#[derive(Clone, Copy, Debug, PartialEq, Eq, Hash)]
pub enum Pair {
    EastWest,
    NorthSouth,
}

/// How the lefts of a pair are served.
#[derive(Clone, Copy, Debug, PartialEq, Eq, Hash)]
pub enum Phasing {
    Protected,
    Permitted,
    Split,
}

/// What lanes carry: a flow in tenths of a vehicle per hour. Volumes and ideal flows, which are entries, are whole vehicles.
#[derive(Clone, Copy, Debug, PartialEq, Eq, PartialOrd, Ord, Hash)]
pub struct Flow(u32);

impl Flow {
    /// How many parts make a vehicle per hour.
    pub const UNIT: u32 = 10;

    pub fn tenths(self) -> u32 {
        self.0
    }

    /// Whole vehicles per hour, what is above them cut off.
    pub fn whole(self) -> u32 {
        self.0 / Flow::UNIT
    }
}

/// Vehicles per hour with one decimal, as a sheet prints them.
impl fmt::Display for Flow {
    fn fmt(&self, f: &mut fmt::Formatter<'_>) -> fmt::Result {
        write!(f, "{}.{}", self.0 / Flow::UNIT, self.0 % Flow::UNIT)
    }
}

/// What a sheet is of: a [`Junction`] or a [`Point`], and nothing else.
pub trait Kind: Laid {}

impl<K: Laid> Kind for K {}

/// Where the cells of a kind stand, and the calls that write them. It has no name outside, so nobody adds a kind.
pub trait Laid {
    type Cells: AsRef<[u32]> + AsMut<[u32]>;
    const EMPTY: Self::Cells;
    /// The lines of each approach.
    const LINES: usize;
    /// The cells of each pair.
    const PAIR: usize;

    fn fill(entries: &[u32], cells: &mut [u32]) -> Result<(), Refusal>;
    fn amend(cells: &mut [u32], entry: u32, value: u32) -> Result<(), Refusal>;
}

/// A junction whose pairs of approaches are each phased in the way that takes the least time.
#[derive(Clone, Copy, Debug, PartialEq, Eq)]
pub enum Junction {}

/// A single point interchange: all lefts are protected, and no lane is shared.
#[derive(Clone, Copy, Debug, PartialEq, Eq)]
pub enum Point {}

impl Laid for Junction {
    type Cells = [u32; 221];
    const EMPTY: Self::Cells = [0; 221];
    const LINES: usize = 28;
    const PAIR: usize = 4;

    fn fill(entries: &[u32], cells: &mut [u32]) -> Result<(), Refusal> {
        sys::fill(entries, cells)
    }

    fn amend(cells: &mut [u32], entry: u32, value: u32) -> Result<(), Refusal> {
        sys::amend(cells, entry, value)
    }
}

impl Laid for Point {
    type Cells = [u32; 175];
    const EMPTY: Self::Cells = [0; 175];
    const LINES: usize = 18;
    const PAIR: usize = 1;

    fn fill(entries: &[u32], cells: &mut [u32]) -> Result<(), Refusal> {
        sys::point_fill(entries, cells)
    }

    fn amend(cells: &mut [u32], entry: u32, value: u32) -> Result<(), Refusal> {
        sys::point_amend(cells, entry, value)
    }
}

/// The cells of a sheet of either kind. Only a fill makes one, so it always holds a rating.
#[derive(Clone, Debug, PartialEq, Eq)]
pub struct SheetOf<K: Kind>(K::Cells);

/// The 221 cells of a junction.
pub type Sheet = SheetOf<Junction>;

/// The 175 cells of a single point interchange; [`Entries::point_start`] gives what its entries start from.
pub type PointSheet = SheetOf<Point>;

impl<K: Kind> SheetOf<K> {
    const PAIRS: usize = FIRST_LINE + 4 * K::LINES;
    const LAST: usize = Self::PAIRS + 2 * K::PAIR;
    pub const CELLS: usize = Self::LAST + 8;

    /// Judges the entries and works out the whole sheet.
    pub fn fill(entries: &Entries) -> Result<SheetOf<K>, Refusal> {
        SheetOf::by(|cells| K::fill(entries.numbers(), cells))
    }

    /// The sheet that a call fills.
    pub(crate) fn by(
        call: impl FnOnce(&mut [u32]) -> Result<(), Refusal>,
    ) -> Result<SheetOf<K>, Refusal> {
        let mut cells = K::EMPTY;
        call(cells.as_mut())?;
        Ok(SheetOf(cells))
    }

    /// Changes one entry and brings all that follows from it up to date.
    pub fn amend(&mut self, entry: Entry, value: u32) -> Result<(), Refusal> {
        K::amend(self.0.as_mut(), entry.place() as u32, value)
    }

    fn cell(&self, at: usize) -> u32 {
        self.0.as_ref()[at]
    }

    fn pair_cell(&self, pair: Pair, at: usize) -> u32 {
        self.cell(Self::PAIRS + K::PAIR * pair as usize + at)
    }

    pub fn entry(&self, entry: Entry) -> u32 {
        self.cell(entry.place())
    }

    pub fn entries(&self) -> Entries {
        let mut numbers = [0; Entries::COUNT];
        numbers.copy_from_slice(&self.0.as_ref()[..Entries::COUNT]);
        Entries::from(numbers)
    }

    /// Line 1 to 28 of an approach, of a single point 1 to 18, in the line's own unit: volumes vehicles per hour, flows tenths of
    /// one, times milliseconds, factors and shares ten-thousandths. None where an option is not allowed or there is no such line.
    pub fn line(&self, approach: Approach, number: usize) -> Option<u32> {
        let line = (1..=K::LINES).contains(&number).then(|| number - 1)?;
        allowed(self.cell(FIRST_LINE + K::LINES * approach as usize + line))
    }

    /// A line that is a flow: 5 to 9 or 22 of an approach; none for any other.
    pub fn flow(&self, approach: Approach, number: usize) -> Option<Flow> {
        matches!(number, 5..=9 | 22).then_some(())?;
        self.line(approach, number).map(Flow)
    }

    /// Milliseconds for the rights of a right lane with all they wait for, 0 where there are none.
    pub fn right_total(&self, approach: Approach) -> u32 {
        self.cell(Self::LAST + approach as usize)
    }

    /// The picked totals of both pairs added, in milliseconds; of a single point, the protected ones.
    pub fn combined(&self) -> u32 {
        self.cell(Self::LAST + 4)
    }

    /// The time required, in milliseconds.
    pub fn required(&self) -> u32 {
        self.cell(Self::LAST + 5)
    }

    /// The ICU in tenths of a percent.
    pub fn icu(&self) -> u32 {
        self.cell(Self::LAST + 6)
    }

    /// The level of service, A to H.
    pub fn letter(&self) -> char {
        char::from(b'A' + self.cell(Self::LAST + 7).min(7) as u8)
    }

    /// All cells in the order of the sheet.
    pub fn cells(&self) -> &K::Cells {
        &self.0
    }
}

impl Sheet {
    /// A pair's total in milliseconds; none where the phasing is not allowed.
    pub fn total(&self, pair: Pair, phasing: Phasing) -> Option<u32> {
        allowed(self.pair_cell(pair, phasing as usize))
    }

    /// The phasing that takes a pair the least time.
    pub fn picked(&self, pair: Pair) -> Phasing {
        match self.pair_cell(pair, 3) {
            0 => Phasing::Protected,
            1 => Phasing::Permitted,
            _ => Phasing::Split,
        }
    }
}

impl PointSheet {
    /// A pair's protected total in milliseconds, the only one it has.
    pub fn total(&self, pair: Pair) -> u32 {
        self.pair_cell(pair, 0)
    }
}

pub(crate) fn allowed(cell: u32) -> Option<u32> {
    (cell != BLANK).then_some(cell)
}
