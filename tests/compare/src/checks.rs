//! One check for each of the library's calls: both get the same input, lent between canaries,
//! and must give the same answer and leave every number the same.

#[cfg(any(feature = "amend", feature = "point"))]
mod amend;
#[cfg(feature = "diamond")]
mod diamond;
mod fill;
#[cfg(feature = "open")]
mod open;
#[cfg(feature = "point")]
mod point;
#[cfg(feature = "study")]
mod study;

use crate::lent::Lent;
use crate::report::Tally;
use compare::generate::Rng;

pub type Check = fn(&mut Rng, &mut Tally) -> Result<(), String>;

/// The word that asks for a check on the command line, its share of the inputs, the check.
pub const CHECKS: &[(&str, usize, Check)] = &[
    ("fill", 10, fill::fill),
    #[cfg(feature = "amend")]
    ("amend", 8, amend::amend),
    #[cfg(feature = "amend")]
    ("amend", 2, amend::repair),
    #[cfg(feature = "amend")]
    ("amend", 1, amend::run_of_amendments),
    #[cfg(feature = "study")]
    ("study", 3, study::file),
    #[cfg(feature = "study")]
    ("study", 2, study::site),
    #[cfg(feature = "study")]
    ("study", 1, study::write),
    #[cfg(feature = "study")]
    ("study", 1, study::list),
    #[cfg(feature = "diamond")]
    ("diamond", 8, diamond::diamond),
    #[cfg(feature = "open")]
    ("open", 1, open::run_of_offices),
    #[cfg(feature = "point")]
    ("point", 8, point::fill),
    #[cfg(feature = "point")]
    ("point", 6, point::amend),
    #[cfg(feature = "point")]
    ("point", 2, point::repair),
    #[cfg(feature = "point")]
    ("point", 1, point::run_of_amendments),
    #[cfg(feature = "point")]
    ("point", 1, point::start),
];

/// A list that a call only reads must come back as it was.
fn unread<T: PartialEq>(before: &Lent<T>, after: &Lent<T>, call: &str) -> Result<(), String> {
    match before == after {
        true => Ok(()),
        false => Err(format!("{call}: a list lent for reading was altered")),
    }
}
