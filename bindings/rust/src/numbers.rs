//! Written numbers that inserted aliases have moved.

use crate::{form_size, out_size, rows_in, Refusal, Version, WorkingArea};

extern "C" {
    fn wnt_moved(
        form: *const u8,
        form_len: usize,
        out: *mut u8,
        out_len: usize,
        moved: *mut u8,
        moved_len: usize,
        apart: *mut u8,
        apart_len: usize,
    ) -> u64;
    fn wnt_moved_with(
        form: *const u8,
        form_len: usize,
        out: *mut u8,
        out_len: usize,
        moved: *mut u8,
        moved_len: usize,
        apart: *mut u8,
        apart_len: usize,
        entered: *mut [u32; 6],
        entered_len: usize,
        names: *mut [u32; 6],
        names_len: usize,
        known: *mut u16,
        known_len: usize,
        chains: *mut u16,
        chains_len: usize,
        ends: *mut u32,
        ends_len: usize,
    ) -> u64;
}

/// A written number that means another declaration in the resolved form than it did in the input.
#[derive(Clone, Copy, Debug, PartialEq, Eq, Hash)]
pub struct Moved {
    /// The place of the number's row.
    pub place: u32,
    /// The space in which it counts.
    pub space: u32,
    /// The row of the input that declares what it meant.
    pub meant: usize,
    /// The row of the resolved form that declares what it means there.
    pub gets: usize,
}

/// A written number that counted to no declaration of the input.
#[derive(Clone, Copy, Debug, PartialEq, Eq, Hash)]
pub struct Apart {
    /// The place of the number's row.
    pub place: u32,
    /// The space in which it counts.
    pub space: u32,
    /// The number.
    pub number: u32,
}

/// A resolved form, and two lists of written numbers of its input, each in row order: those that have moved, and those that
/// counted to no declaration.
#[derive(Clone, Debug, PartialEq, Eq, Hash)]
pub struct Numbers {
    /// What [`crate::resolve`] gives.
    pub resolved: Vec<u8>,
    /// The numbers that have moved.
    pub moved: Vec<Moved>,
    /// The numbers that counted to no declaration.
    pub apart: Vec<Apart>,
}

/// Resolves a form and lists its written numbers that inserted aliases have moved and, in a list of their own, those that
/// counted to no declaration.
///
/// It makes buffers that are long enough, so [`Refusal::Room`] never occurs.
pub fn moved(form: &[u8]) -> Result<Numbers, Refusal> {
    let rows = rows_in(form);
    let (mut out, mut moved, mut apart) = (vec![0; out_size(rows)], vec![0; 16 * rows], vec![0; 12 * rows]);
    // SAFETY: the four buffers are valid for their lengths while the call lasts, and do not overlap. The library writes
    // to the last three only and keeps no pointer.
    let answer = unsafe {
        wnt_moved(
            form.as_ptr(),
            form.len(),
            out.as_mut_ptr(),
            out.len(),
            moved.as_mut_ptr(),
            moved.len(),
            apart.as_mut_ptr(),
            apart.len(),
        )
    };
    let (moved, apart) = listed(answer, &moved, &apart)?;
    out.truncate(form_size(usize::from(u16::from_le_bytes([out[6], out[7]]))));
    Ok(Numbers { resolved: out, moved, apart })
}

/// The same for a form of either version and rule set, in a lent working area.
///
/// It makes other buffers that are long enough. So [`Refusal::Room`] occurs only if the form is of version 2 and the area
/// is one for version 1.
pub fn moved_with(form: &[u8], area: &mut WorkingArea) -> Result<Numbers, Refusal> {
    let version = Version::of(form).unwrap_or(Version::One);
    let rows = version.rows_in(form);
    let (mut out, mut moved, mut apart) = (vec![0; version.out_size(rows)], vec![0; 16 * rows], vec![0; 12 * rows]);
    // SAFETY: every buffer is valid for its length while the call lasts, and all that are written are borrowed alone, so
    // that none overlaps another. The library keeps no pointer.
    let answer = unsafe {
        wnt_moved_with(
            form.as_ptr(),
            form.len(),
            out.as_mut_ptr(),
            out.len(),
            moved.as_mut_ptr(),
            moved.len(),
            apart.as_mut_ptr(),
            apart.len(),
            area.entered.as_mut_ptr(),
            area.entered.len(),
            area.names.as_mut_ptr(),
            area.names.len(),
            area.known.as_mut_ptr(),
            area.known.len(),
            area.chains.as_mut_ptr(),
            area.chains.len(),
            area.ends.as_mut_ptr(),
            area.ends.len(),
        )
    };
    let (moved, apart) = listed(answer, &moved, &apart)?;
    out.truncate(version.form_size(version.stated_rows(&out)));
    Ok(Numbers { resolved: out, moved, apart })
}

/// Both lists, or the refusal.
fn listed(answer: u64, moved: &[u8], apart: &[u8]) -> Result<(Vec<Moved>, Vec<Apart>), Refusal> {
    let (number, rest) = ((answer >> 32) as u32, answer as u32);
    if number != 0 {
        return Err(Refusal::of(number, rest));
    }
    let moved = entries(moved, (rest % 65536) as usize).map(|[place, space, meant, gets]| Moved {
        place,
        space,
        meant: meant as usize,
        gets: gets as usize,
    });
    let apart = entries(apart, (rest / 65536) as usize).map(|[place, space, number]| Apart { place, space, number });
    Ok((moved.collect(), apart.collect()))
}

/// The first `count` entries of a list, each of N numbers.
fn entries<const N: usize>(list: &[u8], count: usize) -> impl Iterator<Item = [u32; N]> + '_ {
    let word = |four: &[u8]| u32::from_le_bytes(four.try_into().expect("four bytes are four"));
    list.chunks_exact(4 * N).take(count).map(move |entry| std::array::from_fn(|i| word(&entry[4 * i..4 * i + 4])))
}
