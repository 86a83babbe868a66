//! Back to names: an input that resolves to a given resolved form.

use crate::versions::rows_or_refusal;
use crate::{Refusal, Version, WorkingArea, MAX_FORM_SIZE, MAX_OUT_SIZE};

extern "C" {
    fn wnt_unresolve(
        form: *const u8,
        form_len: usize,
        out: *mut u8,
        out_len: usize,
        restored: *mut u8,
        restored_len: usize,
        again: *mut u8,
        again_len: usize,
    ) -> u64;
    fn wnt_unresolve_with(
        form: *const u8,
        form_len: usize,
        out: *mut u8,
        out_len: usize,
        restored: *mut u8,
        restored_len: usize,
        again: *mut u8,
        again_len: usize,
        noted: *mut [u32; 2],
        noted_len: usize,
        entered: *mut [u32; 6],
        entered_len: usize,
        names: *mut [u32; 6],
        names_len: usize,
        known: *mut u16,
        known_len: usize,
        chains: *mut u16,
        chains_len: usize,
        ends: *mut u32,
        ends_len: usize,
    ) -> u64;
}

/// Gives an input that [`resolve`](crate::resolve) turns into the very bytes of the form, if there is one.
///
/// Inserted aliases are left out, and the references that they served are names and paths again; other numbers stay. It
/// makes buffers that are long enough, so [`Refusal::Room`] never occurs.
///
/// ```
/// // The empty component has no names, and is its own input.
/// let mut form = b"WNT\x01\x00\x00\x02\x00".to_vec();
/// form.extend([7, 0, 0, 0, 0, 0, 0, 0, 0, 0, 0, 0, 0, 0, 0, 0]);
/// form.extend([8, 0, 0, 0, 0, 0, 0, 0, 0, 0, 0, 0, 0, 0, 0, 0]);
/// assert_eq!(wnt::unresolve(&form), Ok(form.clone()));
/// assert_eq!(wnt::unresolve(&form[..24]), Err(wnt::Refusal::NoInput));
/// ```
pub fn unresolve(form: &[u8]) -> Result<Vec<u8>, Refusal> {
    let mut out = vec![0; MAX_FORM_SIZE];
    let mut restored = vec![0; MAX_FORM_SIZE];
    let mut again = vec![0; MAX_OUT_SIZE];
    let rows = unresolve_into(form, &mut out, &mut restored, &mut again)?;
    out.truncate(crate::form_size(rows));
    Ok(out)
}

/// The same in buffers that the caller lends; it gives the number of rows of the input.
///
/// `restored` needs [`MAX_FORM_SIZE`] bytes and `again` [`MAX_OUT_SIZE`]; both are zero up to there afterwards. A refusal
/// leaves all of `out` unchanged, and success leaves the bytes behind the input unchanged.
pub fn unresolve_into(form: &[u8], out: &mut [u8], restored: &mut [u8], again: &mut [u8]) -> Result<usize, Refusal> {
    // SAFETY: all buffers are valid for their lengths while the call lasts; those that are written are borrowed alone.
    let answer = unsafe {
        wnt_unresolve(
            form.as_ptr(),
            form.len(),
            out.as_mut_ptr(),
            out.len(),
            restored.as_mut_ptr(),
            restored.len(),
            again.as_mut_ptr(),
            again.len(),
        )
    };
    rows_or_refusal(answer)
}

/// The same as [`unresolve`] for a resolved form of either version and rule set, in a lent working area: the input is one
/// that [`resolve_with`](crate::resolve_with) turns into the very bytes of the form.
///
/// It makes other buffers that are long enough. So [`Refusal::Room`] occurs only if the form is of version 2 and the area
/// is one for version 1.
pub fn unresolve_with(form: &[u8], area: &mut WorkingArea) -> Result<Vec<u8>, Refusal> {
    let version = Version::of(form).unwrap_or(Version::One);
    let most = version.max_rows();
    let (mut out, mut restored) = (vec![0; version.form_size(most)], vec![0; version.form_size(most)]);
    let (mut again, mut noted) = (vec![0; version.out_size(most)], vec![[0; 2]; 4 * most]);
    // SAFETY: every buffer is valid for its length while the call lasts, and all that are written are borrowed alone, so
    // that none overlaps another. The library keeps no pointer.
    let answer = unsafe {
        wnt_unresolve_with(
            form.as_ptr(),
            form.len(),
            out.as_mut_ptr(),
            out.len(),
            restored.as_mut_ptr(),
            restored.len(),
            again.as_mut_ptr(),
            again.len(),
            noted.as_mut_ptr(),
            noted.len(),
            area.entered.as_mut_ptr(),
            area.entered.len(),
            area.names.as_mut_ptr(),
            area.names.len(),
            area.known.as_mut_ptr(),
            area.known.len(),
            area.chains.as_mut_ptr(),
            area.chains.len(),
            area.ends.as_mut_ptr(),
            area.ends.len(),
        )
    };
    out.truncate(version.form_size(rows_or_refusal(answer)?));
    Ok(out)
}
