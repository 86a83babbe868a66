//! Checking another assembler's output.

use crate::refusal::Refusal;
use crate::{Version, WorkingArea};

/// How many slots the table must have, for an input of version 1. A slot is six numbers.
pub const CHECK_SLOTS: usize = 2046;

/// How many numbers the index must have, for an input of version 1.
pub const CHECK_LINKS: usize = 3070;

/// How many slots the table must have, for an input of version 2.
pub const CHECK_SLOTS_2: usize = 32_766;

/// How many numbers the index must have, for an input of version 2.
pub const CHECK_LINKS_2: usize = 33_790;

extern "C" {
    fn wnt_check(
        form: *const u8,
        form_len: usize,
        claim: *const u8,
        claim_len: usize,
        table: *mut [u32; 6],
        slots: usize,
        index: *mut u16,
        links: usize,
    ) -> u64;
    fn wnt_check_with(
        form: *const u8,
        form_len: usize,
        claim: *const u8,
        claim_len: usize,
        table: *mut [u32; 6],
        slots: usize,
        index: *mut u16,
        links: usize,
        entered: *mut [u32; 6],
        entered_len: usize,
        names: *mut [u32; 6],
        names_len: usize,
        known: *mut u16,
        known_len: usize,
        chains: *mut u16,
        chains_len: usize,
        ends: *mut u32,
        ends_len: usize,
    ) -> u64;
}

/// What a claimed output must meet; the conditions are tried in this order.
#[derive(Clone, Copy, Debug, PartialEq, Eq, Hash)]
pub enum Condition {
    /// 1: it is a form like the input's, with names from 2147483648 up and four times the rows allowed.
    Form,
    /// 2: without its added fields it has the input's rows, except for PATH rows and operands.
    Rows,
    /// 3: its added fields are aliases with new names, and their operands are numbers.
    Aliases,
    /// 4: every operand of the input is the number that it must be.
    Operands,
}

/// What is said of a claimed output.
#[derive(Clone, Copy, Debug, PartialEq, Eq, Hash)]
pub enum Verdict {
    /// It is a resolved form of the input.
    Yes,
    /// It is not a resolved form of the input.
    No {
        /// The first condition that is broken.
        condition: Condition,
        /// The first claimed row that breaks it: 0 for the header, the row count where a row is missing.
        row: u32,
    },
}

/// Says whether `claim` is a resolved form of `form`, whoever wrote it. If `form` is refused, that refusal is given.
///
/// It makes areas that are large enough, so [`Refusal::Room`] never occurs.
pub fn check(form: &[u8], claim: &[u8]) -> Result<Verdict, Refusal> {
    let (mut table, mut index) = (vec![[0; 6]; CHECK_SLOTS], vec![0; CHECK_LINKS]);
    check_with(form, claim, &mut table, &mut index)
}

/// The same in lent areas, which need [`CHECK_SLOTS`] slots and [`CHECK_LINKS`] numbers.
///
/// Whatever they held, both are zero up to these sizes afterwards, and unchanged beyond.
pub fn check_with(form: &[u8], claim: &[u8], table: &mut [[u32; 6]], index: &mut [u16]) -> Result<Verdict, Refusal> {
    let (slots, links) = (table.len(), index.len());
    // SAFETY: the four buffers are valid for their lengths while the call lasts, and the areas overlap nothing, since they
    // are borrowed alone. The library writes to the areas only and keeps no pointer.
    let answer = unsafe {
        wnt_check(
            form.as_ptr(),
            form.len(),
            claim.as_ptr(),
            claim.len(),
            table.as_mut_ptr(),
            slots,
            index.as_mut_ptr(),
            links,
        )
    };
    verdict(answer)
}

/// The same for an input of either version and rule set. The claim's header must equal the input's in all but the row count.
///
/// It makes a table and an index that are large enough. So [`Refusal::Room`] occurs only if the input is of version 2 and the
/// working area is one for version 1.
pub fn check_either(form: &[u8], claim: &[u8], area: &mut WorkingArea) -> Result<Verdict, Refusal> {
    let (slots, links) = match Version::of(form) {
        Some(Version::Two) => (CHECK_SLOTS_2, CHECK_LINKS_2),
        _ => (CHECK_SLOTS, CHECK_LINKS),
    };
    check_either_with(form, claim, &mut vec![[0; 6]; slots], &mut vec![0; links], area)
}

/// The same in lent areas, which need [`CHECK_SLOTS`] slots and [`CHECK_LINKS`] numbers for an input of version 1, and
/// [`CHECK_SLOTS_2`] and [`CHECK_LINKS_2`] for one of version 2.
///
/// Whatever they held, all are zero afterwards up to the sizes for the input's version, and unchanged beyond.
pub fn check_either_with(
    form: &[u8],
    claim: &[u8],
    table: &mut [[u32; 6]],
    index: &mut [u16],
    area: &mut WorkingArea,
) -> Result<Verdict, Refusal> {
    // SAFETY: every buffer is valid for its length while the call lasts, and all that are written are borrowed alone, so
    // that none overlaps another. The library keeps no pointer.
    let answer = unsafe {
        wnt_check_with(
            form.as_ptr(),
            form.len(),
            claim.as_ptr(),
            claim.len(),
            table.as_mut_ptr(),
            table.len(),
            index.as_mut_ptr(),
            index.len(),
            area.entered.as_mut_ptr(),
            area.entered.len(),
            area.names.as_mut_ptr(),
            area.names.len(),
            area.known.as_mut_ptr(),
            area.known.len(),
            area.chains.as_mut_ptr(),
            area.chains.len(),
            area.ends.as_mut_ptr(),
            area.ends.len(),
        )
    };
    verdict(answer)
}

/// The verdict or the refusal that the library answered.
fn verdict(answer: u64) -> Result<Verdict, Refusal> {
    let (number, row) = ((answer >> 32) as u32, answer as u32);
    match number {
        0 => Ok(Verdict::Yes),
        101 => Ok(Verdict::No { condition: Condition::Form, row }),
        102 => Ok(Verdict::No { condition: Condition::Rows, row }),
        103 => Ok(Verdict::No { condition: Condition::Aliases, row }),
        104 => Ok(Verdict::No { condition: Condition::Operands, row }),
        _ => Err(Refusal::of(number, row)),
    }
}
