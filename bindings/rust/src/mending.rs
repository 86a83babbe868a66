//! Mending a form that an old editor spoilt, with a list of the changes.

use crate::{Refusal, Version};

/// What mending changed at one place.
#[derive(Clone, Debug, PartialEq, Eq, Hash)]
pub struct Change {
    /// The byte of the mended form at which it begins.
    pub offset: usize,
    /// The bytes that stood there before.
    pub before: Vec<u8>,
    /// How many bytes stand there now.
    pub now: usize,
}

extern "C" {
    fn wnt_mend(buffer: *mut u8, buffer_len: usize, length: usize, list: *mut u8, list_len: usize) -> u64;
}

/// The most bytes that a list can have, not counting the bytes that a cut takes away: changes of three parts of the header
/// and of five parts of each row, and the cut.
const fn most_listed(version: Version) -> usize {
    3 * 20 + version.max_rows() * 5 * 16 + 16
}

/// Mends a form of either version and gives the mended form and the changes, in the order of the form. A sound form stays as
/// it is, with no change.
///
/// It makes buffers that are long enough, so [`Refusal::Room`] never occurs.
pub fn mend(form: &[u8]) -> Result<(Vec<u8>, Vec<Change>), Refusal> {
    let version = Version::of(form).unwrap_or(Version::One);
    let mut buffer = form.to_vec();
    buffer.resize(form.len().max(version.form_size(version.max_rows())), 0);
    let mut list = vec![0; most_listed(version) + form.len()];
    // SAFETY: both buffers are valid for their lengths while the call lasts, and are borrowed alone.
    let answer = unsafe { wnt_mend(buffer.as_mut_ptr(), buffer.len(), form.len(), list.as_mut_ptr(), list.len()) };
    let (number, rest) = ((answer >> 32) as u32, answer as u32);
    if number > 0 {
        return Err(Refusal::of(number, rest));
    }
    let high = if version == Version::Two { [buffer[8], buffer[9]] } else { [0, 0] };
    let rows = u32::from_le_bytes([buffer[6], buffer[7], high[0], high[1]]) as usize;
    buffer.truncate(version.form_size(rows));
    Ok((buffer, changes(&list, rest as usize)))
}

/// The first `count` changes of a list.
fn changes(list: &[u8], count: usize) -> Vec<Change> {
    let word = |at: usize| u32::from_le_bytes(list[at..at + 4].try_into().expect("four bytes")) as usize;
    let mut all = Vec::with_capacity(count);
    let mut at = 0;
    for _ in 0..count {
        let (offset, length, now) = (word(at), word(at + 4), word(at + 8));
        let before = list[at + 12..at + 12 + length].to_vec();
        all.push(Change { offset, before, now });
        at += 12 + length.next_multiple_of(4);
    }
    all
}
