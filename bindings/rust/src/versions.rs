//! Both versions of the row form: resolved in a working area that is lent, and converted from one to the other.

use crate::{Refusal, HEADER_SIZE, MAX_ROWS, ROW_SIZE};

/// A slot of a table.
type Slot = [u32; 6];

extern "C" {
    fn wnt_resolve_with(
        form: *const u8,
        form_len: usize,
        out: *mut u8,
        out_len: usize,
        entered: *mut Slot,
        entered_len: usize,
        names: *mut Slot,
        names_len: usize,
        known: *mut u16,
        known_len: usize,
        chains: *mut u16,
        chains_len: usize,
        ends: *mut u32,
        ends_len: usize,
    ) -> u64;
    fn wnt_convert(form: *const u8, form_len: usize, version: u32, out: *mut u8, out_len: usize) -> u64;
}

/// A version of the row form.
#[derive(Clone, Copy, Debug, PartialEq, Eq, Hash)]
pub enum Version {
    /// A header of 8 bytes, up to 1,023 rows and 32 scopes.
    One,
    /// A header of 16 bytes, up to 16,383 rows and 64 scopes.
    Two,
}

impl Version {
    /// The version that a form's header states; `None` where it states neither.
    pub fn of(form: &[u8]) -> Option<Version> {
        match form.get(..5)? {
            b"WNT\x01\x00" => Some(Version::One),
            b"WNT\x02\x00" => Some(Version::Two),
            _ => None,
        }
    }

    /// Its number, 1 or 2.
    pub const fn number(self) -> u32 {
        match self {
            Version::One => 1,
            Version::Two => 2,
        }
    }

    /// The bytes of its header.
    pub const fn header_size(self) -> usize {
        match self {
            Version::One => HEADER_SIZE,
            Version::Two => 2 * HEADER_SIZE,
        }
    }

    /// The most rows that an input may have.
    pub const fn max_rows(self) -> usize {
        match self {
            Version::One => MAX_ROWS,
            Version::Two => 16_383,
        }
    }

    /// How many bytes a form of `rows` rows has.
    pub const fn form_size(self, rows: usize) -> usize {
        self.header_size() + ROW_SIZE * rows
    }

    /// How many bytes the output must have at least for an input of `rows` rows.
    pub const fn out_size(self, rows: usize) -> usize {
        self.header_size() + 4 * ROW_SIZE * rows
    }

    /// The rows that a header of this version states.
    pub(crate) fn stated_rows(self, form: &[u8]) -> usize {
        match self {
            Version::One => usize::from(u16::from_le_bytes([form[6], form[7]])),
            Version::Two => u32::from_le_bytes([form[6], form[7], form[8], form[9]]) as usize,
        }
    }

    /// How many rows a form of this length has if its header is right, at most [`max_rows`](Version::max_rows).
    pub(crate) fn rows_in(self, form: &[u8]) -> usize {
        (form.len().saturating_sub(self.header_size()) / ROW_SIZE).min(self.max_rows())
    }
}

/// What [`resolve_with`] and the other functions for both versions and rule sets work in: two tables, the index of each, and the
/// ends of fields. It can be used for any number of calls, and is zero after each.
#[derive(Clone, Debug)]
pub struct WorkingArea {
    pub(crate) entered: Vec<Slot>,
    pub(crate) names: Vec<Slot>,
    pub(crate) known: Vec<u16>,
    pub(crate) chains: Vec<u16>,
    pub(crate) ends: Vec<u32>,
}

impl WorkingArea {
    /// An area for forms of that version: 61,440 bytes for version 1, 983,040 for version 2. The second serves both
    /// versions.
    pub fn new(version: Version) -> WorkingArea {
        WorkingArea::with_more(version, 0)
    }

    /// An area with room for the names of a prelude's root as well, for members inside it: 88,064 bytes for version 1,
    /// 1,409,024 for version 2. [`member_with`](crate::member_with) and [`batch_with`](crate::batch_with) need it, and it
    /// serves every other function as well.
    pub fn for_members(version: Version) -> WorkingArea {
        WorkingArea::with_more(version, version.max_rows() + 1)
    }

    /// An area whose second table has `more` additional slots.
    fn with_more(version: Version, more: usize) -> WorkingArea {
        let slots = version.max_rows() + 1;
        WorkingArea {
            entered: vec![[0; 6]; slots],
            names: vec![[0; 6]; slots + more],
            known: vec![0; 2 * slots],
            chains: vec![0; 2 * slots + more],
            ends: vec![0; slots],
        }
    }
}

/// Resolves a form of either version and rule set and gives the resolved form, which has the same version and rule set,
/// with no bytes after it.
///
/// It makes an output that is long enough. So [`Refusal::Room`] occurs only if the form is of version 2 and the area is
/// one for version 1.
pub fn resolve_with(form: &[u8], area: &mut WorkingArea) -> Result<Vec<u8>, Refusal> {
    let version = Version::of(form).unwrap_or(Version::One);
    let mut out = vec![0; version.out_size(version.rows_in(form))];
    let rows = resolve_into_with(form, &mut out, area)?;
    out.truncate(version.form_size(rows));
    Ok(out)
}

/// Resolves a form of either version and rule set into `out` and gives the number of rows written.
///
/// How long `out` must be, and what it holds afterwards, is as for [`resolve_into`](crate::resolve_into), with the sizes
/// of the form's version.
pub fn resolve_into_with(form: &[u8], out: &mut [u8], area: &mut WorkingArea) -> Result<usize, Refusal> {
    let WorkingArea { entered, names, known, chains, ends } = area;
    // SAFETY: every buffer is valid for its length while the call lasts, and all that are written are borrowed alone, so
    // that none overlaps another. The library keeps no pointer.
    let answer = unsafe {
        wnt_resolve_with(
            form.as_ptr(),
            form.len(),
            out.as_mut_ptr(),
            out.len(),
            entered.as_mut_ptr(),
            entered.len(),
            names.as_mut_ptr(),
            names.len(),
            known.as_mut_ptr(),
            known.len(),
            chains.as_mut_ptr(),
            chains.len(),
            ends.as_mut_ptr(),
            ends.len(),
        )
    };
    rows_or_refusal(answer)
}

/// Converts a form to that version: the same rows behind the header of that version. A form that already has the version
/// is given back.
///
/// It makes an output that is long enough, so [`Refusal::Room`] never occurs.
pub fn convert(form: &[u8], version: Version) -> Result<Vec<u8>, Refusal> {
    let mut out = vec![0; form.len() + HEADER_SIZE];
    // SAFETY: both buffers are valid for their lengths while the call lasts, and `out` is borrowed alone. The library
    // writes to `out` only and keeps no pointer.
    let answer = unsafe { wnt_convert(form.as_ptr(), form.len(), version.number(), out.as_mut_ptr(), out.len()) };
    let rows = rows_or_refusal(answer)?;
    out.truncate(version.form_size(rows));
    Ok(out)
}

/// The number of rows that an answer gives, or its refusal.
pub(crate) fn rows_or_refusal(answer: u64) -> Result<usize, Refusal> {
    let (number, rest) = ((answer >> 32) as u32, answer as u32);
    match number {
        0 => Ok(rest as usize),
        _ => Err(Refusal::of(number, rest)),
    }
}
