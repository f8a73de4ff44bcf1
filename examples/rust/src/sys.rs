//! The library's calls, each under a safe function; all the unsafe code is here.

use crate::Refusal;

#[repr(C)]
#[derive(Clone, Copy)]
struct IcuAnswer {
    number: u32,
    place: u32,
}

extern "C" {
    fn icu_fill(
        entries: *const u32,
        entries_len: usize,
        sheet: *mut u32,
        sheet_len: usize,
    ) -> IcuAnswer;
    fn icu_amend(sheet: *mut u32, len: usize, entry: u32, value: u32) -> IcuAnswer;
    fn icu_point_start(entries: *mut u32, len: usize) -> IcuAnswer;
    fn icu_point_fill(
        entries: *const u32,
        entries_len: usize,
        sheet: *mut u32,
        sheet_len: usize,
    ) -> IcuAnswer;
    fn icu_point_amend(sheet: *mut u32, len: usize, entry: u32, value: u32) -> IcuAnswer;
    fn icu_diamond(
        record: *const u32,
        record_len: usize,
        cells: *mut u32,
        cells_len: usize,
    ) -> IcuAnswer;
    fn icu_open_add(
        owners: *mut u32,
        owners_len: usize,
        blocks: *mut u32,
        blocks_len: usize,
        office: u32,
        entries: *const u32,
        entries_len: usize,
        place: *mut u32,
    ) -> IcuAnswer;
    fn icu_open_amend(
        owners: *const u32,
        owners_len: usize,
        blocks: *mut u32,
        blocks_len: usize,
        office: u32,
        site: u32,
        entry: u32,
        value: u32,
    ) -> IcuAnswer;
    fn icu_open_read(
        owners: *const u32,
        owners_len: usize,
        blocks: *const u32,
        blocks_len: usize,
        office: u32,
        site: u32,
        sheet: *mut u32,
        sheet_len: usize,
    ) -> IcuAnswer;
    fn icu_study_check(file: *const u8, len: usize) -> IcuAnswer;
    fn icu_study_count(file: *const u8, len: usize) -> u32;
    fn icu_study_site(
        file: *const u8,
        len: usize,
        site: u32,
        entries: *mut u32,
        entries_len: usize,
    ) -> IcuAnswer;
    fn icu_study_write(entries: *const u32, len: usize, out: *mut u8, out_len: usize) -> IcuAnswer;
    fn icu_study_list(
        file: *const u8,
        len: usize,
        out: *mut u8,
        out_len: usize,
        length: *mut u32,
    ) -> IcuAnswer;
}

fn result(answer: IcuAnswer) -> Result<(), Refusal> {
    match answer.number {
        0 => Ok(()),
        number => Err(Refusal::new(number, answer.place)),
    }
}

pub fn fill(entries: &[u32], sheet: &mut [u32]) -> Result<(), Refusal> {
    // SAFETY: both lists are live for the call, of the lengths given, and do not overlap.
    result(unsafe {
        icu_fill(
            entries.as_ptr(),
            entries.len(),
            sheet.as_mut_ptr(),
            sheet.len(),
        )
    })
}

pub fn amend(sheet: &mut [u32], entry: u32, value: u32) -> Result<(), Refusal> {
    // SAFETY: the list is live for the call and of the length given.
    result(unsafe { icu_amend(sheet.as_mut_ptr(), sheet.len(), entry, value) })
}

pub fn point_start(entries: &mut [u32]) -> Result<(), Refusal> {
    // SAFETY: the list is live for the call and of the length given.
    result(unsafe { icu_point_start(entries.as_mut_ptr(), entries.len()) })
}

pub fn point_fill(entries: &[u32], sheet: &mut [u32]) -> Result<(), Refusal> {
    let (cells, len) = (sheet.as_mut_ptr(), sheet.len());
    // SAFETY: both lists are live for the call, of the lengths given, and do not overlap.
    result(unsafe { icu_point_fill(entries.as_ptr(), entries.len(), cells, len) })
}

pub fn point_amend(sheet: &mut [u32], entry: u32, value: u32) -> Result<(), Refusal> {
    // SAFETY: the list is live for the call and of the length given.
    result(unsafe { icu_point_amend(sheet.as_mut_ptr(), sheet.len(), entry, value) })
}

/// Gives the number and the place of a refusal, whose places are of two junctions.
pub fn diamond(record: &[u32], cells: &mut [u32]) -> Result<(), (u32, u32)> {
    let (list, len) = (cells.as_mut_ptr(), cells.len());
    // SAFETY: both lists are live for the call, of the lengths given, and do not overlap.
    let answer = unsafe { icu_diamond(record.as_ptr(), record.len(), list, len) };
    match answer.number {
        0 => Ok(()),
        number => Err((number, answer.place)),
    }
}

/// Gives the place that the entries were put at.
pub fn open_add(
    owners: &mut [u32],
    blocks: &mut [u32],
    office: u32,
    entries: &[u32],
) -> Result<u32, Refusal> {
    let (owned, places) = (owners.as_mut_ptr(), owners.len());
    let (held, numbers) = (blocks.as_mut_ptr(), blocks.len());
    let (list, len) = (entries.as_ptr(), entries.len());
    let mut place = 0;
    // SAFETY: all lists and the place are live for the call, of the lengths given, and apart.
    let answer =
        unsafe { icu_open_add(owned, places, held, numbers, office, list, len, &mut place) };
    result(answer).map(|()| place)
}

pub fn open_amend(
    owners: &[u32],
    blocks: &mut [u32],
    office: u32,
    site: u32,
    (entry, value): (u32, u32),
) -> Result<(), Refusal> {
    let (owned, places) = (owners.as_ptr(), owners.len());
    let (held, numbers) = (blocks.as_mut_ptr(), blocks.len());
    // SAFETY: both lists are live for the call, of the lengths given, and do not overlap.
    result(unsafe { icu_open_amend(owned, places, held, numbers, office, site, entry, value) })
}

pub fn open_read(
    owners: &[u32],
    blocks: &[u32],
    office: u32,
    site: u32,
    sheet: &mut [u32],
) -> Result<(), Refusal> {
    let (owned, places) = (owners.as_ptr(), owners.len());
    let (held, numbers) = (blocks.as_ptr(), blocks.len());
    let (cells, len) = (sheet.as_mut_ptr(), sheet.len());
    // SAFETY: all three lists are live for the call, of the lengths given, and apart.
    result(unsafe { icu_open_read(owned, places, held, numbers, office, site, cells, len) })
}

pub fn study_check(file: &[u8]) -> Result<(), Refusal> {
    // SAFETY: the file is live for the call and of the length given.
    result(unsafe { icu_study_check(file.as_ptr(), file.len()) })
}

pub fn study_count(file: &[u8]) -> u32 {
    // SAFETY: the file is live for the call and of the length given.
    unsafe { icu_study_count(file.as_ptr(), file.len()) }
}

pub fn study_site(file: &[u8], site: u32, entries: &mut [u32]) -> Result<(), Refusal> {
    let (list, len) = (entries.as_mut_ptr(), entries.len());
    // SAFETY: file and list are live for the call, of the lengths given, and do not overlap.
    result(unsafe { icu_study_site(file.as_ptr(), file.len(), site, list, len) })
}

pub fn study_write(entries: &[u32], out: &mut [u8]) -> Result<(), Refusal> {
    let (room, len) = (out.as_mut_ptr(), out.len());
    // SAFETY: both lists are live for the call, of the lengths given, and do not overlap.
    result(unsafe { icu_study_write(entries.as_ptr(), entries.len(), room, len) })
}

/// Gives the length of the listing.
pub fn study_list(file: &[u8], out: &mut [u8]) -> Result<usize, Refusal> {
    let (room, len) = (out.as_mut_ptr(), out.len());
    let mut length = 0;
    // SAFETY: file, room and length are live for the call, of the lengths given, and apart.
    let answer = unsafe { icu_study_list(file.as_ptr(), file.len(), room, len, &mut length) };
    result(answer).map(|()| length as usize)
}
