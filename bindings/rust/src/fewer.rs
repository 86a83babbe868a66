//! Resolving with fewer aliases.

use crate::versions::rows_or_refusal;
use crate::{
    form_size, out_size, rows_in, Refusal, Version, WorkingArea, CHECK_LINKS, CHECK_LINKS_2, CHECK_SLOTS,
    CHECK_SLOTS_2, ROW_SIZE,
};

extern "C" {
    fn wnt_share(
        form: *const u8,
        form_len: usize,
        out: *mut u8,
        out_len: usize,
        table: *mut [u32; 6],
        slots: usize,
        index: *mut u16,
        links: usize,
    ) -> u64;
    fn wnt_share_with(
        form: *const u8,
        form_len: usize,
        out: *mut u8,
        out_len: usize,
        marked: *mut u8,
        marked_len: usize,
        table: *mut [u32; 6],
        table_len: usize,
        index: *mut u16,
        index_len: usize,
        entered: *mut [u32; 6],
        entered_len: usize,
        names: *mut [u32; 6],
        names_len: usize,
        known: *mut u16,
        known_len: usize,
        chains: *mut u16,
        chains_len: usize,
        ends: *mut u32,
        ends_len: usize,
    ) -> u64;
}

/// Resolves a form so that in each scope references to the same outer declaration share one inserted alias, which stands
/// before the first field that needs it.
///
/// The refusals are those of [`crate::resolve`], and the result has no more rows than that function gives.
pub fn share(form: &[u8]) -> Result<Vec<u8>, Refusal> {
    let mut out = vec![0; out_size(rows_in(form))];
    let (mut table, mut index) = (vec![[0; 6]; CHECK_SLOTS], vec![0; CHECK_LINKS]);
    let rows = share_into(form, &mut out, &mut table, &mut index)?;
    out.truncate(form_size(rows));
    Ok(out)
}

/// The same into `out`, and gives the number of rows written. [`crate::resolve_into`] says what `out` holds afterwards. The
/// lent areas need [`CHECK_SLOTS`] slots and [`CHECK_LINKS`] numbers.
///
/// Whatever the areas held, both are zero up to these sizes afterwards, and unchanged beyond.
pub fn share_into(form: &[u8], out: &mut [u8], table: &mut [[u32; 6]], index: &mut [u16]) -> Result<usize, Refusal> {
    let (slots, links) = (table.len(), index.len());
    // SAFETY: the four buffers are valid for their lengths while the call lasts, and those that are written overlap
    // nothing, since they are borrowed alone. The library writes to these three only and keeps no pointer.
    let answer = unsafe {
        wnt_share(
            form.as_ptr(),
            form.len(),
            out.as_mut_ptr(),
            out.len(),
            table.as_mut_ptr(),
            slots,
            index.as_mut_ptr(),
            links,
        )
    };
    rows_or_refusal(answer)
}

/// The same as [`share`] for a form of either version and rule set, in a lent working area.
///
/// The refusals are those of [`crate::resolve_with`]. It makes other buffers that are long enough.
pub fn share_with(form: &[u8], area: &mut WorkingArea) -> Result<Vec<u8>, Refusal> {
    let version = Version::of(form).unwrap_or(Version::One);
    let (slots, links) = match version {
        Version::One => (CHECK_SLOTS, CHECK_LINKS),
        Version::Two => (CHECK_SLOTS_2, CHECK_LINKS_2),
    };
    let (mut table, mut index) = (vec![[0; 6]; slots], vec![0; links]);
    let mut marked = vec![0; ROW_SIZE * version.max_rows()];
    let mut out = vec![0; version.out_size(version.rows_in(form))];
    // SAFETY: every buffer is valid for its length while the call lasts, and all that are written are borrowed alone, so
    // that none overlaps another. The library keeps no pointer.
    let answer = unsafe {
        wnt_share_with(
            form.as_ptr(),
            form.len(),
            out.as_mut_ptr(),
            out.len(),
            marked.as_mut_ptr(),
            marked.len(),
            table.as_mut_ptr(),
            table.len(),
            index.as_mut_ptr(),
            index.len(),
            area.entered.as_mut_ptr(),
            area.entered.len(),
            area.names.as_mut_ptr(),
            area.names.len(),
            area.known.as_mut_ptr(),
            area.known.len(),
            area.chains.as_mut_ptr(),
            area.chains.len(),
            area.ends.as_mut_ptr(),
            area.ends.len(),
        )
    };
    out.truncate(version.form_size(rows_or_refusal(answer)?));
    Ok(out)
}
