//! The 93 entries of a junction or a single point interchange, by name.

use crate::sys;
use std::fmt;

#[derive(Clone, Copy, Debug, PartialEq, Eq, Hash)]
pub enum Approach {
    Eastbound,
    Westbound,
    Northbound,
    Southbound,
}

#[derive(Clone, Copy, Debug, PartialEq, Eq, Hash)]
pub enum Turn {
    Left,
    Through,
    Right,
}

impl Approach {
    pub const ALL: [Approach; 4] = [
        Approach::Eastbound,
        Approach::Westbound,
        Approach::Northbound,
        Approach::Southbound,
    ];
}

impl Turn {
    pub const ALL: [Turn; 3] = [Turn::Left, Turn::Through, Turn::Right];
}

/// One of the entries. Whether a value suits it is for a fill or an amendment to say.
#[derive(Clone, Copy, Debug, PartialEq, Eq, Hash)]
pub enum Entry {
    /// How many lanes the movement has to itself.
    Lanes(Approach, Turn),
    /// Vehicles per hour.
    Volume(Approach, Turn),
    /// Ideal flow of a lane, whole vehicles per hour.
    IdealFlow(Approach, Turn),
    /// Milliseconds.
    LostTime(Approach, Turn),
    /// Milliseconds.
    MinimumGreen(Approach, Turn),
    /// How evenly the lanes are used, in thousandths; see [`LaneFactor`].
    LaneFactor(Approach, Turn),
    /// 1 where a through lane is shared with the lefts.
    SharedLane(Approach),
    /// Pedestrians per hour.
    Pedestrians(Approach),
    /// 1 where pedestrians have a button.
    PushButton(Approach),
    /// Pedestrian time in milliseconds.
    WalkTime(Approach),
    /// 1 where rights do not wait for a phase.
    FreeRight(Approach),
    /// The cycle in seconds.
    Cycle,
}

impl Entry {
    /// Where the entry stands among the 93.
    pub fn place(self) -> usize {
        let movement = |a: Approach, t: Turn| 6 * (3 * a as usize + t as usize);
        let approach = |a: Approach| 72 + 5 * a as usize;
        match self {
            Entry::Lanes(a, t) => movement(a, t),
            Entry::Volume(a, t) => movement(a, t) + 1,
            Entry::IdealFlow(a, t) => movement(a, t) + 2,
            Entry::LostTime(a, t) => movement(a, t) + 3,
            Entry::MinimumGreen(a, t) => movement(a, t) + 4,
            Entry::LaneFactor(a, t) => movement(a, t) + 5,
            Entry::SharedLane(a) => approach(a),
            Entry::Pedestrians(a) => approach(a) + 1,
            Entry::PushButton(a) => approach(a) + 2,
            Entry::WalkTime(a) => approach(a) + 3,
            Entry::FreeRight(a) => approach(a) + 4,
            Entry::Cycle => 92,
        }
    }

    /// The entry that stands at a place, if there is one.
    pub fn at(place: usize) -> Option<Entry> {
        match place {
            0..=71 => {
                let (a, t) = (Approach::ALL[place / 18], Turn::ALL[place / 6 % 3]);
                let kinds: [fn(Approach, Turn) -> Entry; 6] = [
                    Entry::Lanes,
                    Entry::Volume,
                    Entry::IdealFlow,
                    Entry::LostTime,
                    Entry::MinimumGreen,
                    Entry::LaneFactor,
                ];
                Some(kinds[place % 6](a, t))
            }
            72..=91 => {
                let kinds: [fn(Approach) -> Entry; 5] = [
                    Entry::SharedLane,
                    Entry::Pedestrians,
                    Entry::PushButton,
                    Entry::WalkTime,
                    Entry::FreeRight,
                ];
                let (a, kind) = ((place - 72) / 5, (place - 72) % 5);
                Some(kinds[kind](Approach::ALL[a]))
            }
            92 => Some(Entry::Cycle),
            _ => None,
        }
    }
}

/// How evenly a movement's lanes are used, where somebody counted each of them: 500 to 1,000 thousandths, so 971 is 0.971. Where
/// nobody did, [`LaneFactor::TABLE`] leaves it to the table of the rules. It counts for any number of lanes, one included; that of
/// the lefts also where they share a through lane.
#[derive(Clone, Copy, Debug, Default, PartialEq, Eq, Hash)]
pub struct LaneFactor(u32);

impl LaneFactor {
    /// The table's factor, not a measured one; as a number it is 0.
    pub const TABLE: LaneFactor = LaneFactor(0);
    /// How many parts make a factor of 1.
    pub const UNIT: u32 = 1_000;

    /// None for a number that is neither 0 nor 500 to 1,000.
    pub const fn from_thousandths(thousandths: u32) -> Option<LaneFactor> {
        match thousandths {
            0 | 500..=LaneFactor::UNIT => Some(LaneFactor(thousandths)),
            _ => None,
        }
    }

    /// The entry's number: 0 for the table's.
    pub const fn thousandths(self) -> u32 {
        self.0
    }

    pub const fn is_measured(self) -> bool {
        self.0 != 0
    }
}

/// A measured factor with its three decimals, such as 0.971.
impl fmt::Display for LaneFactor {
    fn fmt(&self, f: &mut fmt::Formatter<'_>) -> fmt::Result {
        if !self.is_measured() {
            return write!(f, "the table's");
        }
        let (whole, parts) = (self.0 / LaneFactor::UNIT, self.0 % LaneFactor::UNIT);
        write!(f, "{whole}.{parts:03}")
    }
}

/// The entries of one junction or single point interchange, judged when a sheet is filled from them.
#[derive(Clone, Debug, PartialEq, Eq)]
pub struct Entries([u32; Entries::COUNT]);

impl Entries {
    pub const COUNT: usize = 93;

    /// All entries 0; ideal flows and the cycle must be set before a fill accepts them. Lane factors are the table's.
    pub fn new() -> Entries {
        Entries([0; Entries::COUNT])
    }

    /// What a single point interchange starts from: ideal flows of 2,000, lost times of 8,000 ms for lefts and 6,000 ms for the
    /// rest, a cycle of 120 s, and all else 0. A fill accepts them.
    pub fn point_start() -> Entries {
        let mut numbers = [0; Entries::COUNT];
        sys::point_start(&mut numbers).expect("only another length is refused");
        Entries(numbers)
    }

    pub fn get(&self, entry: Entry) -> u32 {
        self.0[entry.place()]
    }

    pub fn set(&mut self, entry: Entry, value: u32) -> &mut Entries {
        self.0[entry.place()] = value;
        self
    }

    /// The lane factor of a movement; none where its entry holds a number that is no lane factor.
    pub fn lane_factor(&self, approach: Approach, turn: Turn) -> Option<LaneFactor> {
        LaneFactor::from_thousandths(self.get(Entry::LaneFactor(approach, turn)))
    }

    pub fn set_lane_factor(
        &mut self,
        approach: Approach,
        turn: Turn,
        factor: LaneFactor,
    ) -> &mut Entries {
        self.set(Entry::LaneFactor(approach, turn), factor.thousandths())
    }

    /// The entries in the order of their places.
    pub fn numbers(&self) -> &[u32; Entries::COUNT] {
        &self.0
    }
}

impl Default for Entries {
    fn default() -> Entries {
        Entries::new()
    }
}

impl From<[u32; Entries::COUNT]> for Entries {
    fn from(numbers: [u32; Entries::COUNT]) -> Entries {
        Entries(numbers)
    }
}
