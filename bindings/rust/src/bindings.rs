//! Binding sheets: what each reference of a form must mean, checked against its resolved form.

use crate::{Refusal, Version, WorkingArea};

/// The most slots that a sheet may have.
pub const MAX_SLOTS: usize = 200;

/// The bytes of a slot.
pub const SLOT_SIZE: usize = 12;

/// The bytes of an answer to a slot.
pub const ANSWER_SIZE: usize = 8;

/// The bytes of the working area.
pub const SHEET_AREA_SIZE: usize = 65480;

extern "C" {
    fn wnt_sheet(
        form: *const u8,
        form_len: usize,
        resolved: *const u8,
        resolved_len: usize,
        sheet: *const u8,
        sheet_len: usize,
        answers: *mut u8,
        answers_len: usize,
        work: *mut u8,
        work_len: usize,
    ) -> u64;
    fn wnt_sheet_with(
        form: *const u8,
        form_len: usize,
        resolved: *const u8,
        resolved_len: usize,
        sheet: *const u8,
        sheet_len: usize,
        answers: *mut u8,
        answers_len: usize,
        work: *mut u8,
        work_len: usize,
        entered: *mut [u32; 6],
        entered_len: usize,
        names: *mut [u32; 6],
        names_len: usize,
        known: *mut u16,
        known_len: usize,
        chains: *mut u16,
        chains_len: usize,
        ends: *mut u32,
        ends_len: usize,
    ) -> u64;
}

/// What a reference must mean.
#[derive(Clone, Copy, Debug, PartialEq, Eq, Hash)]
pub struct Slot {
    /// The meter family, a number that the caller chooses.
    pub family: u32,
    /// The place of the reference.
    pub place: u32,
    /// The name of the declaration that the reference must mean. It is not 0.
    pub name: u32,
}

/// What a slot is bound to.
#[derive(Clone, Copy, Debug, PartialEq, Eq, Hash)]
pub enum Binding {
    /// The one reference at the place reaches a declaration of the slot's name.
    AsWritten,
    /// It reaches another declaration.
    Elsewhere {
        /// The row of the resolved form that declares it, or 0 if the reference reaches nothing.
        row: usize,
    },
    /// No reference of the form is at the place.
    NoReference,
    /// Several references of the form are at the place.
    Several,
}

/// A sheet as bytes: three little-endian numbers for each slot.
pub fn sheet_bytes(slots: &[Slot]) -> Vec<u8> {
    slots.iter().flat_map(|slot| [slot.family, slot.place, slot.name]).flat_map(u32::to_le_bytes).collect()
}

/// Answers each slot, in order: by what the reference at its place reaches in `resolved`, which must be the very bytes that
/// [`crate::resolve`] gives for `form`. The sheet passes if all are [`Binding::AsWritten`].
///
/// The only refusal is [`Refusal::NotItsSheet`]: there are more than [`MAX_SLOTS`] slots, or one has name 0, or `form` is
/// refused, or `resolved` is not its resolved form.
pub fn sheet(form: &[u8], resolved: &[u8], slots: &[Slot]) -> Result<Vec<Binding>, Refusal> {
    let mut answers = vec![0; ANSWER_SIZE * slots.len()];
    sheet_into(form, resolved, &sheet_bytes(slots), &mut answers, &mut vec![0; SHEET_AREA_SIZE])?;
    Ok(answers.chunks_exact(ANSWER_SIZE).map(binding).collect())
}

/// The same in lent buffers, and gives the number of slots that are not bound as written. `answers` then holds eight bytes
/// for each slot: the kind, 0 to 3 in the order of [`Binding`], and the row or 0. A refusal leaves `answers` unchanged.
///
/// `work` may hold anything; afterwards it is zero up to [`SHEET_AREA_SIZE`], or all of it if it is shorter. Here
/// [`Refusal::Room`] can occur too: after the sheet is tested, if `work` is too small, and after everything else is tested,
/// if `answers` is too short.
pub fn sheet_into(
    form: &[u8],
    resolved: &[u8],
    sheet: &[u8],
    answers: &mut [u8],
    work: &mut [u8],
) -> Result<usize, Refusal> {
    // SAFETY: the five buffers are valid for their lengths while the call lasts, and those that are written overlap nothing,
    // since they are borrowed alone. The library writes to the last two only and keeps no pointer.
    let answer = unsafe {
        wnt_sheet(
            form.as_ptr(),
            form.len(),
            resolved.as_ptr(),
            resolved.len(),
            sheet.as_ptr(),
            sheet.len(),
            answers.as_mut_ptr(),
            answers.len(),
            work.as_mut_ptr(),
            work.len(),
        )
    };
    match (answer >> 32) as u32 {
        0 => Ok(answer as u32 as usize),
        number => Err(Refusal::of(number, answer as u32)),
    }
}

/// The same as [`sheet`] for forms of either version and rule set, in a lent working area. `resolved` must be what
/// [`crate::resolve_with`] gives for `form`.
///
/// Here [`Refusal::Room`] can occur too: if the form is of version 2 and the area is one for version 1.
pub fn sheet_with(
    form: &[u8],
    resolved: &[u8],
    slots: &[Slot],
    area: &mut WorkingArea,
) -> Result<Vec<Binding>, Refusal> {
    let version = Version::of(form).unwrap_or(Version::One);
    let (sheet, mut answers) = (sheet_bytes(slots), vec![0; ANSWER_SIZE * slots.len()]);
    let mut work = vec![0; version.out_size(version.max_rows())];
    // SAFETY: every buffer is valid for its length while the call lasts, and all that are written are borrowed alone, so
    // that none overlaps another. The library keeps no pointer.
    let answer = unsafe {
        wnt_sheet_with(
            form.as_ptr(),
            form.len(),
            resolved.as_ptr(),
            resolved.len(),
            sheet.as_ptr(),
            sheet.len(),
            answers.as_mut_ptr(),
            answers.len(),
            work.as_mut_ptr(),
            work.len(),
            area.entered.as_mut_ptr(),
            area.entered.len(),
            area.names.as_mut_ptr(),
            area.names.len(),
            area.known.as_mut_ptr(),
            area.known.len(),
            area.chains.as_mut_ptr(),
            area.chains.len(),
            area.ends.as_mut_ptr(),
            area.ends.len(),
        )
    };
    match (answer >> 32) as u32 {
        0 => Ok(answers.chunks_exact(ANSWER_SIZE).map(binding).collect()),
        number => Err(Refusal::of(number, answer as u32)),
    }
}

/// The answer for a slot, from its eight bytes.
fn binding(answer: &[u8]) -> Binding {
    let word = |i: usize| u32::from_le_bytes(answer[i..i + 4].try_into().expect("four bytes are four"));
    match word(0) {
        0 => Binding::AsWritten,
        1 => Binding::Elsewhere { row: word(4) as usize },
        2 => Binding::NoReference,
        _ => Binding::Several,
    }
}
