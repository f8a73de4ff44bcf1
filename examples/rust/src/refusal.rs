//! Why a call was refused.

use crate::{Approach, Entry, Turn};
use std::fmt;

/// What the library said no to, and where. A refused call alters nothing.
#[derive(Clone, Copy, Debug, PartialEq, Eq)]
pub enum Refusal {
    /// A list of the wrong length.
    Size,
    /// An amendment of an entry that a sheet does not have.
    Entry,
    /// The first entry that is outside its range.
    Range(Entry),
    /// The first approach that has a shared lane and left lanes, or no through lane to share; of a single point, the first that has
    /// a shared lane at all.
    Shared(Approach),
    /// The first movement that has volume and no lane to use.
    NoLane(Approach, Turn),
    /// A study file badly laid out (the byte where it goes wrong), a site it lacks or too little
    /// room (4), or too many sites (0).
    File(u32),
    /// The office has no site at this place: another's, a free one, or none that there is.
    Owner(u32),
    /// No place of the open study is free.
    Full,
    /// A number and place that this version has no name for.
    Other(u32, u32),
}

impl Refusal {
    pub(crate) fn new(number: u32, place: u32) -> Refusal {
        Refusal::named(number, place).unwrap_or(Refusal::Other(number, place))
    }

    fn named(number: u32, place: u32) -> Option<Refusal> {
        let at = place as usize;
        match number {
            1 => Some(Refusal::Size),
            2 => Some(Refusal::Entry),
            3 => Entry::at(at).map(Refusal::Range),
            4 => Approach::ALL
                .get(at)
                .map(|&approach| Refusal::Shared(approach)),
            5 => {
                let approach = *Approach::ALL.get(at / 3)?;
                Some(Refusal::NoLane(approach, Turn::ALL[at % 3]))
            }
            6 => Some(Refusal::File(place)),
            9 => Some(Refusal::Owner(place)),
            10 => Some(Refusal::Full),
            _ => None,
        }
    }
}

impl fmt::Display for Refusal {
    fn fmt(&self, f: &mut fmt::Formatter) -> fmt::Result {
        match self {
            Refusal::Size => write!(f, "a list has the wrong length"),
            Refusal::Entry => write!(f, "there is no such entry"),
            Refusal::Range(entry) => write!(f, "{entry:?} is out of range"),
            Refusal::Shared(approach) => {
                write!(
                    f,
                    "{approach:?} has a shared lane with left lanes, with no through lane, or at a single point"
                )
            }
            Refusal::NoLane(approach, turn) => {
                write!(f, "{approach:?} {turn:?} has volume and no lane to use")
            }
            Refusal::File(place) => write!(f, "the study file is refused at {place}"),
            Refusal::Owner(place) => write!(f, "the office has no site at place {place}"),
            Refusal::Full => write!(f, "every place is taken"),
            Refusal::Other(number, place) => write!(f, "refused: {number} at {place}"),
        }
    }
}

impl std::error::Error for Refusal {}
