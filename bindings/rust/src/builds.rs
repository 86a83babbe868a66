//! Comparing two builds: the list of what differs between two resolved forms.

use crate::{Refusal, ROW_SIZE};

extern "C" {
    fn wnt_compare(
        left: *const u8,
        left_len: usize,
        right: *const u8,
        right_len: usize,
        choice: u32,
        list: *mut u8,
        list_len: usize,
    ) -> u64;
}

/// The bytes of the longest list, that of two forms of 4,092 rows.
const MAX_LIST_SIZE: usize = 229_076;

/// The bytes of an entry before its rows: five numbers.
const ENTRY_SIZE: usize = 20;

/// What does not count in a comparison.
#[derive(Clone, Copy, Debug, Default, PartialEq, Eq, Hash)]
pub struct Choice {
    /// Places, which are z of every row.
    pub ignore_places: bool,
    /// Which fresh name it is: all names from 2147483648 up count as the same.
    pub ignore_fresh: bool,
}

/// What differs.
#[derive(Clone, Copy, Debug, PartialEq, Eq, Hash)]
pub enum Kind {
    /// The roots' OPEN rows.
    Opening,
    /// A field of the root that only the left has.
    LeftOnly,
    /// A field of the root that only the right has.
    RightOnly,
    /// One field is left over on each side, and both have the same code.
    Differing,
}

/// A difference. Where a side has no rows, its first row is the one before which they are missing.
#[derive(Clone, Debug, PartialEq, Eq, Hash)]
pub struct Entry {
    /// What differs.
    pub kind: Kind,
    /// The first row in the left.
    pub left: usize,
    /// The number of rows there.
    pub left_rows: usize,
    /// The first row in the right.
    pub right: usize,
    /// The rows there, 16 bytes each.
    pub rows: Vec<u8>,
}

/// Compares two resolved forms and lists what differs. The list is empty exactly if they are equal in everything that the
/// choice lets count.
///
/// It makes a list that is long enough, so [`Refusal::Room`] never occurs.
pub fn compare(left: &[u8], right: &[u8], choice: Choice) -> Result<Vec<Entry>, Refusal> {
    let mut list = vec![0; MAX_LIST_SIZE];
    let bits = u32::from(choice.ignore_places) + 2 * u32::from(choice.ignore_fresh);
    // SAFETY: the three buffers are valid for their lengths while the call lasts, and `list` overlaps neither of the
    // others. The library writes to `list` only and keeps no pointer.
    let answer = unsafe {
        wnt_compare(left.as_ptr(), left.len(), right.as_ptr(), right.len(), bits, list.as_mut_ptr(), list.len())
    };
    let (number, rest) = ((answer >> 32) as u32, answer as u32);
    match number {
        0 => Ok(entries(&list[..rest as usize])),
        _ => Err(Refusal::of(number, rest)),
    }
}

/// The entries of a list, in order.
fn entries(mut list: &[u8]) -> Vec<Entry> {
    let mut found = Vec::new();
    while !list.is_empty() {
        let (numbers, rest) = list.split_at(ENTRY_SIZE);
        let (rows, behind) = rest.split_at(ROW_SIZE * number(numbers, 4));
        found.push(Entry {
            kind: kind(number(numbers, 0)),
            left: number(numbers, 1),
            left_rows: number(numbers, 2),
            right: number(numbers, 3),
            rows: rows.to_vec(),
        });
        list = behind;
    }
    found
}

/// One of the five numbers of an entry, by its position.
fn number(numbers: &[u8], place: usize) -> usize {
    let four = numbers[4 * place..4 * place + 4].try_into().expect("four bytes are four");
    u32::from_le_bytes(four) as usize
}

/// The kind with that number.
fn kind(number: usize) -> Kind {
    match number {
        1 => Kind::Opening,
        2 => Kind::LeftOnly,
        3 => Kind::RightOnly,
        4 => Kind::Differing,
        _ => unreachable!("the static library is of another version: it listed kind {number}"),
    }
}
