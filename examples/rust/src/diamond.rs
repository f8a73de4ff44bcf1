//! Diamond interchanges: two junctions of an east-west arterial, and the road between them.

use crate::sheet::allowed;
use crate::{sys, Approach, Entries, Refusal, Turn};
use std::fmt;

const RECORD: usize = 191;
const EAST: usize = 93;
const STORAGES: usize = 186;
const TRAVEL: usize = 190;
/// Where the times of the sides, the plans and what is picked stand among the cells.
const ISOLATED: usize = 14;
const PLANS: usize = 22;
const PICKED: usize = 25;

/// One of the two junctions.
#[derive(Clone, Copy, Debug, PartialEq, Eq, Hash)]
pub enum Side {
    West,
    East,
}

/// Room for waiting vehicles between the junctions.
#[derive(Clone, Copy, Debug, PartialEq, Eq, Hash)]
pub enum Storage {
    /// For the west junction's WB left.
    WestboundLeft,
    /// For the east junction's EB left.
    EastboundLeft,
    /// The road eastbound, for the west ramp's left.
    RoadEastbound,
    /// The road westbound, for the east ramp's left.
    RoadWestbound,
}

/// A timing plan for both junctions.
#[derive(Clone, Copy, Debug, PartialEq, Eq, Hash)]
pub enum Plan {
    LeadingAlternate,
    Lagging,
    LeadLag,
}

impl Storage {
    pub const ALL: [Storage; 4] = [
        Storage::WestboundLeft,
        Storage::EastboundLeft,
        Storage::RoadEastbound,
        Storage::RoadWestbound,
    ];
}

/// Why an interchange was not rated: the first fault, by the order of the library's refusals.
#[derive(Clone, Copy, Debug, PartialEq, Eq)]
pub enum Unrated {
    /// What a junction is refused for; the east's cycle also where it is not the west's.
    Junction(Side, Refusal),
    /// The first storage that is not 1 to 999 vehicles.
    Storage(Storage),
    /// A travel time of more than 60,000 ms.
    Travel,
    /// A number and place that this version has no name for.
    Other(u32, u32),
}

impl Unrated {
    fn new((number, place): (u32, u32)) -> Unrated {
        // The east junction's places are counted on from the west's.
        let junction = |east: u32| match place.checked_sub(east) {
            None => Unrated::Junction(Side::West, Refusal::new(number, place)),
            Some(place) => Unrated::Junction(Side::East, Refusal::new(number, place)),
        };
        let storage = (place as usize)
            .checked_sub(STORAGES)
            .and_then(|at| Storage::ALL.get(at));
        match (number, storage) {
            (3, _) => junction(EAST as u32),
            (4, _) => junction(4),
            (5, _) => junction(12),
            (7, Some(&storage)) => Unrated::Storage(storage),
            (8, _) => Unrated::Travel,
            _ => Unrated::Other(number, place),
        }
    }
}

impl fmt::Display for Unrated {
    fn fmt(&self, f: &mut fmt::Formatter) -> fmt::Result {
        match self {
            Unrated::Junction(side, refusal) => write!(f, "{side:?}: {refusal}"),
            Unrated::Storage(storage) => write!(f, "{storage:?} is not 1 to 999 vehicles"),
            Unrated::Travel => write!(f, "the travel time is above 60 s"),
            Unrated::Other(number, place) => write!(f, "refused: {number} at {place}"),
        }
    }
}

impl std::error::Error for Unrated {}

/// The numbers of an interchange, judged when it is rated.
#[derive(Clone, Debug, PartialEq, Eq)]
pub struct Diamond {
    pub west: Entries,
    pub east: Entries,
    /// Vehicles, in the order of [`Storage::ALL`].
    pub storages: [u32; 4],
    /// The time from one junction to the other, in milliseconds.
    pub travel: u32,
}

impl Diamond {
    /// Judges the numbers and works out the plans.
    pub fn rate(&self) -> Result<Interchange, Unrated> {
        let mut record = [0; RECORD];
        record[..EAST].copy_from_slice(self.west.numbers());
        record[EAST..STORAGES].copy_from_slice(self.east.numbers());
        record[STORAGES..TRAVEL].copy_from_slice(&self.storages);
        record[TRAVEL] = self.travel;
        let mut cells = [0; Interchange::CELLS];
        match sys::diamond(&record, &mut cells) {
            Ok(()) => Ok(Interchange(cells)),
            Err(answer) => Err(Unrated::new(answer)),
        }
    }
}

/// The 29 cells of an interchange. Only a rating makes one.
#[derive(Clone, Debug, PartialEq, Eq)]
pub struct Interchange([u32; Interchange::CELLS]);

impl Interchange {
    pub const CELLS: usize = 29;

    /// The movements that an interchange's times are of, seven of each side.
    pub const MOVEMENTS: [(Side, Approach, Turn); 14] = [
        (Side::West, Approach::Eastbound, Turn::Through),
        (Side::West, Approach::Eastbound, Turn::Right),
        (Side::West, Approach::Westbound, Turn::Left),
        (Side::West, Approach::Westbound, Turn::Through),
        (Side::West, Approach::Southbound, Turn::Left),
        (Side::West, Approach::Southbound, Turn::Through),
        (Side::West, Approach::Southbound, Turn::Right),
        (Side::East, Approach::Westbound, Turn::Through),
        (Side::East, Approach::Westbound, Turn::Right),
        (Side::East, Approach::Eastbound, Turn::Left),
        (Side::East, Approach::Eastbound, Turn::Through),
        (Side::East, Approach::Northbound, Turn::Left),
        (Side::East, Approach::Northbound, Turn::Through),
        (Side::East, Approach::Northbound, Turn::Right),
    ];

    /// A movement's interchange time in milliseconds; none of one that an interchange has not.
    pub fn time(&self, side: Side, approach: Approach, turn: Turn) -> Option<u32> {
        let wanted = (side, approach, turn);
        let at = Self::MOVEMENTS.iter().position(|&found| found == wanted)?;
        Some(self.0[at])
    }

    /// Isolated time 1 of a side, in milliseconds.
    pub fn isolated(&self, side: Side) -> u32 {
        self.0[ISOLATED + side as usize]
    }

    /// Its alternate check.
    pub fn alternate(&self, side: Side) -> u32 {
        self.0[ISOLATED + 2 + side as usize]
    }

    /// The larger of the two.
    pub fn combined(&self, side: Side) -> u32 {
        self.0[ISOLATED + 4 + side as usize]
    }

    /// The overlap of a side, in milliseconds.
    pub fn overlap(&self, side: Side) -> u32 {
        self.0[ISOLATED + 6 + side as usize]
    }

    /// What a plan takes, in milliseconds; none where the storages do not allow it.
    pub fn plan(&self, plan: Plan) -> Option<u32> {
        allowed(self.0[PLANS + plan as usize])
    }

    /// The allowed plan that takes the least time.
    pub fn picked(&self) -> Plan {
        match self.0[PICKED] {
            0 => Plan::LeadingAlternate,
            1 => Plan::Lagging,
            _ => Plan::LeadLag,
        }
    }

    /// What it takes, in milliseconds.
    pub fn best(&self) -> u32 {
        self.0[PICKED + 1]
    }

    /// The ICU in tenths of a percent.
    pub fn icu(&self) -> u32 {
        self.0[PICKED + 2]
    }

    /// The level of service, A to H.
    pub fn letter(&self) -> char {
        char::from(b'A' + self.0[PICKED + 3].min(7) as u8)
    }

    /// All cells in their order.
    pub fn cells(&self) -> &[u32; Interchange::CELLS] {
        &self.0
    }
}
