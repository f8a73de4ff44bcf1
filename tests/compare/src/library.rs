//! The library's C calls, each under a safe function of the same shape as its twin among the plain rules.
//! A lent list passes as a pointer and then a length; the library keeps nothing after a call.

use crate::rules::Answer;

#[allow(dead_code)]
#[repr(C)]
#[derive(Clone, Copy)]
struct IcuAnswer {
    number: u32,
    place: u32,
}

impl From<IcuAnswer> for Answer {
    fn from(answer: IcuAnswer) -> Answer {
        Answer {
            number: answer.number,
            place: answer.place,
        }
    }
}

#[cfg(feature = "fill")]
extern "C" {
    fn icu_fill(
        entries: *const u32,
        entries_len: usize,
        sheet: *mut u32,
        sheet_len: usize,
    ) -> IcuAnswer;
}

#[cfg(feature = "amend")]
extern "C" {
    fn icu_amend(sheet: *mut u32, len: usize, entry: u32, value: u32) -> IcuAnswer;
}

#[cfg(feature = "study")]
extern "C" {
    fn icu_study_check(file: *const u8, len: usize) -> IcuAnswer;
    fn icu_study_count(file: *const u8, len: usize) -> u32;
    fn icu_study_site(
        file: *const u8,
        len: usize,
        site: u32,
        entries: *mut u32,
        entries_len: usize,
    ) -> IcuAnswer;
    fn icu_study_write(entries: *const u32, len: usize, out: *mut u8, out_len: usize) -> IcuAnswer;
    fn icu_study_list(
        file: *const u8,
        len: usize,
        out: *mut u8,
        out_len: usize,
        length: *mut u32,
    ) -> IcuAnswer;
}

#[cfg(feature = "diamond")]
extern "C" {
    fn icu_diamond(
        record: *const u32,
        record_len: usize,
        cells: *mut u32,
        cells_len: usize,
    ) -> IcuAnswer;
}

#[cfg(feature = "point")]
extern "C" {
    fn icu_point_start(entries: *mut u32, len: usize) -> IcuAnswer;
    fn icu_point_fill(
        entries: *const u32,
        entries_len: usize,
        sheet: *mut u32,
        sheet_len: usize,
    ) -> IcuAnswer;
    fn icu_point_amend(sheet: *mut u32, len: usize, entry: u32, value: u32) -> IcuAnswer;
}

#[cfg(feature = "decay")]
extern "C" {
    fn icu_decay_number(m: u64) -> u64;
}

#[cfg(feature = "open")]
extern "C" {
    fn icu_open_add(
        owners: *mut u32,
        owners_len: usize,
        blocks: *mut u32,
        blocks_len: usize,
        office: u32,
        entries: *const u32,
        entries_len: usize,
        place: *mut u32,
    ) -> IcuAnswer;
    fn icu_open_amend(
        owners: *const u32,
        owners_len: usize,
        blocks: *mut u32,
        blocks_len: usize,
        office: u32,
        site: u32,
        entry: u32,
        value: u32,
    ) -> IcuAnswer;
    fn icu_open_read(
        owners: *const u32,
        owners_len: usize,
        blocks: *const u32,
        blocks_len: usize,
        office: u32,
        site: u32,
        sheet: *mut u32,
        sheet_len: usize,
    ) -> IcuAnswer;
}

#[cfg(feature = "fill")]
pub fn fill(entries: &[u32], sheet: &mut [u32]) -> Answer {
    // SAFETY: both lists are live for the call, of the lengths given, and do not overlap.
    unsafe {
        icu_fill(
            entries.as_ptr(),
            entries.len(),
            sheet.as_mut_ptr(),
            sheet.len(),
        )
    }
    .into()
}

#[cfg(feature = "amend")]
pub fn amend(sheet: &mut [u32], entry: u32, value: u32) -> Answer {
    // SAFETY: the list is live for the call and of the length given.
    unsafe { icu_amend(sheet.as_mut_ptr(), sheet.len(), entry, value) }.into()
}

#[cfg(feature = "study")]
pub fn study_check(file: &[u8]) -> Answer {
    // SAFETY: the file is live for the call and of the length given.
    unsafe { icu_study_check(file.as_ptr(), file.len()) }.into()
}

#[cfg(feature = "study")]
pub fn study_count(file: &[u8]) -> u32 {
    // SAFETY: the file is live for the call and of the length given.
    unsafe { icu_study_count(file.as_ptr(), file.len()) }
}

#[cfg(feature = "study")]
pub fn study_site(file: &[u8], site: u32, entries: &mut [u32]) -> Answer {
    let (list, len) = (entries.as_mut_ptr(), entries.len());
    // SAFETY: file and list are live for the call, of the lengths given, and do not overlap.
    unsafe { icu_study_site(file.as_ptr(), file.len(), site, list, len) }.into()
}

#[cfg(feature = "study")]
pub fn study_write(entries: &[u32], out: &mut [u8]) -> Answer {
    // SAFETY: both lists are live for the call, of the lengths given, and do not overlap.
    unsafe { icu_study_write(entries.as_ptr(), entries.len(), out.as_mut_ptr(), out.len()) }.into()
}

#[cfg(feature = "study")]
pub fn study_list(file: &[u8], out: &mut [u8], length: &mut u32) -> Answer {
    let (room, len) = (out.as_mut_ptr(), out.len());
    // SAFETY: file, room and length are live for the call, of the lengths given, and apart.
    unsafe { icu_study_list(file.as_ptr(), file.len(), room, len, length) }.into()
}

#[cfg(feature = "diamond")]
pub fn diamond(record: &[u32], cells: &mut [u32]) -> Answer {
    let (list, len) = (cells.as_mut_ptr(), cells.len());
    // SAFETY: both lists are live for the call, of the lengths given, and do not overlap.
    unsafe { icu_diamond(record.as_ptr(), record.len(), list, len) }.into()
}

#[cfg(feature = "point")]
pub fn point_start(entries: &mut [u32]) -> Answer {
    // SAFETY: the list is live for the call and of the length given.
    unsafe { icu_point_start(entries.as_mut_ptr(), entries.len()) }.into()
}

#[cfg(feature = "point")]
pub fn point_fill(entries: &[u32], sheet: &mut [u32]) -> Answer {
    let (cells, len) = (sheet.as_mut_ptr(), sheet.len());
    // SAFETY: both lists are live for the call, of the lengths given, and do not overlap.
    unsafe { icu_point_fill(entries.as_ptr(), entries.len(), cells, len) }.into()
}

#[cfg(feature = "point")]
pub fn point_amend(sheet: &mut [u32], entry: u32, value: u32) -> Answer {
    // SAFETY: the list is live for the call and of the length given.
    unsafe { icu_point_amend(sheet.as_mut_ptr(), sheet.len(), entry, value) }.into()
}

#[cfg(feature = "decay")]
pub fn decay_number(m: u64) -> u64 {
    // SAFETY: it takes a number and gives one.
    unsafe { icu_decay_number(m) }
}

#[cfg(feature = "open")]
pub const OPEN: crate::open::Calls = crate::open::Calls {
    add: open_add,
    amend: open_amend,
    read: open_read,
};

#[cfg(feature = "open")]
fn open_add(
    owners: &mut [u32],
    blocks: &mut [u32],
    office: u32,
    entries: &[u32],
    place: &mut u32,
) -> Answer {
    let (owned, places) = (owners.as_mut_ptr(), owners.len());
    let (held, numbers) = (blocks.as_mut_ptr(), blocks.len());
    let (list, len) = (entries.as_ptr(), entries.len());
    // SAFETY: all lists and the place are live for the call, of the lengths given, and apart.
    unsafe { icu_open_add(owned, places, held, numbers, office, list, len, place) }.into()
}

#[cfg(feature = "open")]
fn open_amend(
    owners: &[u32],
    blocks: &mut [u32],
    office: u32,
    site: u32,
    (entry, value): (u32, u32),
) -> Answer {
    let (owned, places) = (owners.as_ptr(), owners.len());
    let (held, numbers) = (blocks.as_mut_ptr(), blocks.len());
    // SAFETY: both lists are live for the call, of the lengths given, and do not overlap.
    unsafe { icu_open_amend(owned, places, held, numbers, office, site, entry, value) }.into()
}

#[cfg(feature = "open")]
fn open_read(owners: &[u32], blocks: &[u32], office: u32, site: u32, sheet: &mut [u32]) -> Answer {
    let (owned, places) = (owners.as_ptr(), owners.len());
    let (held, numbers) = (blocks.as_ptr(), blocks.len());
    let (cells, len) = (sheet.as_mut_ptr(), sheet.len());
    // SAFETY: all three lists are live for the call, of the lengths given, and apart.
    unsafe { icu_open_read(owned, places, held, numbers, office, site, cells, len) }.into()
}
