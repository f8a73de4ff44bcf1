//! Study files: up to 165 junctions in one file. Entries are not judged in reading and writing.
//!
//! Files of before lane factors were measured are read as well, up to 180 junctions in one: every lane factor is the table's then.
//! They are not written any more.

use crate::{sys, Entries, Refusal};

/// The most sites a file may have.
pub const SITES: usize = 165;

/// The most sites a file of before may have.
pub const SITES_BEFORE: usize = 180;

/// The bytes of a file besides its sites, and those of a site with its offset.
const HEAD: usize = 8;
const SITE: usize = 4 + 4 * Entries::COUNT;

/// Room for any listing.
const LISTING: usize = 6_120;

/// How many sites a well laid out file of either kind has.
pub fn count(file: &[u8]) -> Result<u32, Refusal> {
    sys::study_check(file).map(|()| sys::study_count(file))
}

/// The entries of a site, counted from 0; of a file of before, with the table's lane factors.
pub fn site(file: &[u8], site: u32) -> Result<Entries, Refusal> {
    let mut numbers = [0; Entries::COUNT];
    sys::study_site(file, site, &mut numbers)?;
    Ok(Entries::from(numbers))
}

/// A file of these sites.
pub fn write(sites: &[Entries]) -> Result<Vec<u8>, Refusal> {
    let numbers: Vec<u32> = sites.iter().flat_map(|site| *site.numbers()).collect();
    // More sites than a file may have need no more room: the call says so before it writes.
    let mut file = vec![0; HEAD + SITE * sites.len().min(SITES)];
    sys::study_write(&numbers, &mut file)?;
    Ok(file)
}

/// One line for each site with its rating, or one line that says where a bad file goes wrong. A refused site's place is that of the
/// entry in [`Entries`], for a file of before, too.
pub fn list(file: &[u8]) -> Result<String, Refusal> {
    let mut text = vec![0; LISTING];
    let length = sys::study_list(file, &mut text)?;
    text.truncate(length);
    Ok(String::from_utf8_lossy(&text).into_owned())
}
