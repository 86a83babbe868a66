//! Resolves the names of a WebAssembly component, given as rows, into index numbers.
//!
//! A form is a header of 8 bytes and rows of 16 bytes; `docs/RULES.md` has both, and all rules. The work is done by
//! `wnt_resolve_told` of the proved static library, whose answer and output are fixed for every input. This crate only lends
//! it the buffers and puts its answer into a `Result`. Larger forms are of version 2, with a header of 16 bytes, and may ask
//! for the rule set of the newer tools: [`resolve_with`] and the other functions with a [`WorkingArea`] take both versions
//! and rule sets, and [`convert`] goes from one version to the other.
//!
//! ```
//! // The empty component: its OPEN and its CLOSE. It has no names and is resolved to itself.
//! let mut form = b"WNT\x01\x00\x00\x02\x00".to_vec();
//! form.extend([7, 0, 0, 0, 0, 0, 0, 0, 0, 0, 0, 0, 0, 0, 0, 0]);
//! form.extend([8, 0, 0, 0, 0, 0, 0, 0, 0, 0, 0, 0, 0, 0, 0, 0]);
//! assert_eq!(wnt::resolve(&form), Ok(form.clone()));
//!
//! // Without the CLOSE its length is not what the header says.
//! form.truncate(24);
//! assert_eq!(wnt::resolve(&form), Err(wnt::Refusal::RowCount));
//! ```

#![warn(missing_docs)]

mod back;
mod bindings;
mod builds;
mod claims;
mod fewer;
mod members;
mod mending;
mod numbers;
mod refusal;
mod rows;
mod space;
mod versions;

pub use back::{unresolve, unresolve_into, unresolve_with};
pub use bindings::{
    sheet, sheet_bytes, sheet_into, sheet_with, Binding, Slot, ANSWER_SIZE, MAX_SLOTS, SHEET_AREA_SIZE, SLOT_SIZE,
};
pub use builds::{compare, Choice, Entry, Kind};
pub use claims::{
    check, check_either, check_either_with, check_with, Condition, Verdict, CHECK_LINKS, CHECK_LINKS_2, CHECK_SLOTS,
    CHECK_SLOTS_2,
};
pub use fewer::{share, share_into, share_with};
pub use members::{
    batch, batch_into, batch_into_with, batch_with, meant, member, member_with, Batch, Meant, Of, Refused, MAX_MEMBERS,
};
pub use mending::{mend, Change};
pub use numbers::{moved, moved_with, Apart, Moved, Numbers};
pub use refusal::Refusal;
pub use rows::{component, rows, Builder, Field, Name, Operand, Row, Scope, Space};
pub use versions::{convert, resolve_into_with, resolve_with, Version, WorkingArea};

/// The bytes of a form's header.
pub const HEADER_SIZE: usize = 8;

/// The bytes of a row.
pub const ROW_SIZE: usize = 16;

/// The most rows that an input may have.
pub const MAX_ROWS: usize = 1023;

/// The bytes of the longest input.
pub const MAX_FORM_SIZE: usize = form_size(MAX_ROWS);

/// The bytes of an output that is long enough for every input.
pub const MAX_OUT_SIZE: usize = out_size(MAX_ROWS);

extern "C" {
    fn wnt_resolve_told(
        form: *const u8,
        form_len: usize,
        out: *mut u8,
        out_len: usize,
        told: *mut u32,
        told_len: usize,
    ) -> u64;
}

/// How many bytes a form of `rows` rows has.
pub const fn form_size(rows: usize) -> usize {
    HEADER_SIZE + ROW_SIZE * rows
}

/// How many bytes the output must have at least for an input of `rows` rows: a resolved form has at most four times as
/// many rows as its input.
pub const fn out_size(rows: usize) -> usize {
    HEADER_SIZE + 4 * ROW_SIZE * rows
}

/// Resolves a form and gives the resolved form, with no bytes after it.
///
/// It makes an output that is long enough, so [`Refusal::Room`] never occurs.
pub fn resolve(form: &[u8]) -> Result<Vec<u8>, Refusal> {
    let mut out = vec![0; out_size(rows_in(form))];
    let rows = resolve_into(form, &mut out)?;
    out.truncate(form_size(rows));
    Ok(out)
}

/// Resolves a form into `out` and gives the number of rows written.
///
/// `out` needs [`out_size`] bytes for the form's rows. Bytes beyond these are never changed. After acceptance the resolved
/// form stands in front, [`form_size`] of the rows written, and the rest of the needed bytes are zero; after refusals 1 to
/// 5 everything is unchanged; after 6 to 12 the needed bytes are zero.
pub fn resolve_into(form: &[u8], out: &mut [u8]) -> Result<usize, Refusal> {
    let mut told = [0; 2];
    // SAFETY: the three buffers are valid for their lengths while the call lasts, and do not overlap, since `out` is
    // borrowed alone. The library writes to `out` and `told` only and keeps no pointer.
    let answer = unsafe {
        wnt_resolve_told(form.as_ptr(), form.len(), out.as_mut_ptr(), out.len(), told.as_mut_ptr(), told.len())
    };
    let (number, rest) = ((answer >> 32) as u32, answer as u32);
    match number {
        0 => Ok(rest as usize),
        _ => Err(Refusal::told(number, rest, told)),
    }
}

/// How many rows a form of this length has if its header is right, at most [`MAX_ROWS`].
fn rows_in(form: &[u8]) -> usize {
    (form.len().saturating_sub(HEADER_SIZE) / ROW_SIZE).min(MAX_ROWS)
}
