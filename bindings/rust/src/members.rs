//! Members inside a prelude: resolving one of them or a batch of them, and which declaration a name means.

use crate::versions::rows_or_refusal;
use crate::{out_size, rows_in, Refusal, Version, WorkingArea, HEADER_SIZE, MAX_OUT_SIZE, ROW_SIZE};

/// What the library adds to the number of a prelude's refusal.
const OF_PRELUDE: u32 = 200;

extern "C" {
    fn wnt_member(
        prelude: *const u8,
        prelude_len: usize,
        member: *const u8,
        member_len: usize,
        out: *mut u8,
        out_len: usize,
        work: *mut u8,
        work_len: usize,
    ) -> u64;
    fn wnt_batch(
        prelude: *const u8,
        prelude_len: usize,
        members: *const u8,
        members_len: usize,
        lengths: *const u32,
        lengths_len: usize,
        prelude_out: *mut u8,
        prelude_out_len: usize,
        outs: *mut u8,
        outs_len: usize,
        answers: *mut u8,
        answers_len: usize,
    ) -> u64;
    fn wnt_meant(prelude: *const u8, prelude_len: usize, member: *const u8, member_len: usize, row: u32) -> u64;
    fn wnt_member_with(
        prelude: *const u8,
        prelude_len: usize,
        member: *const u8,
        member_len: usize,
        out: *mut u8,
        out_len: usize,
        work: *mut u8,
        work_len: usize,
        entered: *mut [u32; 6],
        entered_len: usize,
        names: *mut [u32; 6],
        names_len: usize,
        known: *mut u16,
        known_len: usize,
        chains: *mut u16,
        chains_len: usize,
        ends: *mut u32,
        ends_len: usize,
    ) -> u64;
    fn wnt_batch_with(
        prelude: *const u8,
        prelude_len: usize,
        members: *const u8,
        members_len: usize,
        lengths: *const u32,
        lengths_len: usize,
        out: *mut u8,
        out_len: usize,
        outs: *mut u8,
        outs_len: usize,
        answers: *mut u8,
        answers_len: usize,
        entered: *mut [u32; 6],
        entered_len: usize,
        names: *mut [u32; 6],
        names_len: usize,
        known: *mut u16,
        known_len: usize,
        chains: *mut u16,
        chains_len: usize,
        ends: *mut u32,
        ends_len: usize,
    ) -> u64;
}

/// The form in which a declaration stands.
#[derive(Clone, Copy, Debug, PartialEq, Eq, Hash)]
pub enum Of {
    /// The member itself.
    Member,
    /// The prelude in whose root the member lies.
    Prelude,
}

/// Which of the two forms is refused, and why.
#[derive(Clone, Copy, Debug, PartialEq, Eq, Hash)]
pub struct Refused {
    /// The form.
    pub of: Of,
    /// Its refusal.
    pub why: Refusal,
}

/// Resolves a member as if its root lay inside the root of the resolved prelude, and gives the resolved member.
///
/// Both are inputs of version 1. The result depends on these two alone, not on any other member.
pub fn member(prelude: &[u8], member: &[u8]) -> Result<Vec<u8>, Refused> {
    let mut out = vec![0; out_size(rows_in(member))];
    let mut work = vec![0; MAX_OUT_SIZE];
    // SAFETY: the buffers are valid for their lengths while the call lasts, and `out` and `work` overlap nothing, since
    // they are new. The library writes to these two only and keeps no pointer.
    let answer = unsafe {
        wnt_member(
            prelude.as_ptr(),
            prelude.len(),
            member.as_ptr(),
            member.len(),
            out.as_mut_ptr(),
            out.len(),
            work.as_mut_ptr(),
            work.len(),
        )
    };
    let rows = rows_or_refused(answer)?;
    out.truncate(Version::One.form_size(rows));
    Ok(out)
}

/// The same for a prelude and a member of either version and rule set, in a lent working area from
/// [`WorkingArea::for_members`]. A member whose version or rule set is not the prelude's is refused with
/// [`Refusal::Header`].
///
/// It makes other buffers that are long enough. So the prelude is refused with [`Refusal::Room`] only if the area is too
/// small for its version.
pub fn member_with(prelude: &[u8], member: &[u8], area: &mut WorkingArea) -> Result<Vec<u8>, Refused> {
    let version = Version::of(prelude).unwrap_or(Version::One);
    let mut out = vec![0; version.out_size(version.rows_in(member))];
    let mut work = vec![0; version.out_size(version.max_rows())];
    // SAFETY: every buffer is valid for its length while the call lasts, and all that are written are borrowed alone, so
    // that none overlaps another. The library keeps no pointer.
    let answer = unsafe {
        wnt_member_with(
            prelude.as_ptr(),
            prelude.len(),
            member.as_ptr(),
            member.len(),
            out.as_mut_ptr(),
            out.len(),
            work.as_mut_ptr(),
            work.len(),
            area.entered.as_mut_ptr(),
            area.entered.len(),
            area.names.as_mut_ptr(),
            area.names.len(),
            area.known.as_mut_ptr(),
            area.known.len(),
            area.chains.as_mut_ptr(),
            area.chains.len(),
            area.ends.as_mut_ptr(),
            area.ends.len(),
        )
    };
    let rows = rows_or_refused(answer)?;
    out.truncate(version.form_size(rows));
    Ok(out)
}

/// The number of rows of a member that an answer gives, or which form is refused and why.
fn rows_or_refused(answer: u64) -> Result<usize, Refused> {
    let (number, rest) = ((answer >> 32) as u32, answer as u32);
    match number {
        0 => Ok(rest as usize),
        OF_PRELUDE.. => Err(Refused { of: Of::Prelude, why: Refusal::of(number - OF_PRELUDE, rest) }),
        _ => Err(Refused { of: Of::Member, why: Refusal::of(number, rest) }),
    }
}

/// The most members that a batch may have.
pub const MAX_MEMBERS: usize = 8;

/// The bytes of the answer for a member.
const ANSWER: usize = 8;

/// The result of a batch whose prelude is not refused.
#[derive(Clone, Debug, PartialEq, Eq, Hash)]
pub struct Batch {
    /// The resolved prelude.
    pub prelude: Vec<u8>,
    /// The members, each resolved or refused by itself.
    pub members: Vec<Result<Vec<u8>, Refusal>>,
}

/// Resolves a prelude, and members inside its root, each as [`member`] does.
///
/// A refusal is that of the prelude, or [`Refusal::RowCount`] where there is no member or more than [`MAX_MEMBERS`]. The
/// result for a member depends on the prelude and on that member alone.
pub fn batch(prelude: &[u8], members: &[&[u8]]) -> Result<Batch, Refusal> {
    batch_as(Version::One, prelude, members, batch_into)
}

/// The same for forms of either version and rule set, each member as [`member_with`] does, in a lent working area from
/// [`WorkingArea::for_members`]. A member whose version or rule set is not the prelude's is refused with
/// [`Refusal::Header`], and the prelude with [`Refusal::Room`] if the area is too small for its version.
pub fn batch_with(prelude: &[u8], members: &[&[u8]], area: &mut WorkingArea) -> Result<Batch, Refusal> {
    let version = Version::of(prelude).unwrap_or(Version::One);
    batch_as(version, prelude, members, |prelude, members, lengths, out, outs, answers| {
        batch_into_with(prelude, members, lengths, out, outs, answers, area)
    })
}

/// A batch of this version; `into` resolves it into buffers that are made here.
fn batch_as(
    version: Version,
    prelude: &[u8],
    members: &[&[u8]],
    into: impl FnOnce(&[u8], &[u8], &[u32], &mut [u8], &mut [u8], &mut [u8]) -> Result<usize, Refusal>,
) -> Result<Batch, Refusal> {
    let lengths: Vec<u32> = members.iter().map(|member| member.len().try_into().unwrap_or(u32::MAX)).collect();
    let needed = |form: &[u8]| version.out_size(version.rows_in(form));
    let share = members.iter().map(|member| needed(member)).max().unwrap_or(0);
    let mut out = vec![0; needed(prelude)];
    let mut outs = vec![0; share * members.len()];
    let mut answers = vec![0; ANSWER * members.len()];
    let rows = into(prelude, &members.concat(), &lengths, &mut out, &mut outs, &mut answers)?;
    out.truncate(version.form_size(rows));
    let resolved = |(share, answer): (&[u8], &[u8])| {
        let rows = rows_or_refusal(u64::from_le_bytes(answer.try_into().expect("eight bytes are eight")))?;
        Ok(share[..version.form_size(rows)].to_vec())
    };
    let members = outs.chunks(share).zip(answers.chunks(ANSWER)).map(resolved).collect();
    Ok(Batch { prelude: out, members })
}

/// Resolves a prelude into `out`, and members into equal shares of `outs`, and gives the number of rows of the prelude.
///
/// The members stand one after another, and `lengths` has the length of each. The answer for each goes into eight bytes of
/// `answers`, little endian: a refusal's number times 2^32 plus its place, or the number of rows.
pub fn batch_into(
    prelude: &[u8],
    members: &[u8],
    lengths: &[u32],
    out: &mut [u8],
    outs: &mut [u8],
    answers: &mut [u8],
) -> Result<usize, Refusal> {
    // SAFETY: the buffers are valid for their lengths while the call lasts, and those that are written overlap nothing,
    // since each is borrowed alone. The library writes to these three only and keeps no pointer.
    let answer = unsafe {
        wnt_batch(
            prelude.as_ptr(),
            prelude.len(),
            members.as_ptr(),
            members.len(),
            lengths.as_ptr(),
            lengths.len(),
            out.as_mut_ptr(),
            out.len(),
            outs.as_mut_ptr(),
            outs.len(),
            answers.as_mut_ptr(),
            answers.len(),
        )
    };
    rows_or_refusal(answer)
}

/// The same for forms of either version and rule set, in a lent working area from [`WorkingArea::for_members`].
pub fn batch_into_with(
    prelude: &[u8],
    members: &[u8],
    lengths: &[u32],
    out: &mut [u8],
    outs: &mut [u8],
    answers: &mut [u8],
    area: &mut WorkingArea,
) -> Result<usize, Refusal> {
    // SAFETY: every buffer is valid for its length while the call lasts, and all that are written are borrowed alone, so
    // that none overlaps another. The library keeps no pointer.
    let answer = unsafe {
        wnt_batch_with(
            prelude.as_ptr(),
            prelude.len(),
            members.as_ptr(),
            members.len(),
            lengths.as_ptr(),
            lengths.len(),
            out.as_mut_ptr(),
            out.len(),
            outs.as_mut_ptr(),
            outs.len(),
            answers.as_mut_ptr(),
            answers.len(),
            area.entered.as_mut_ptr(),
            area.entered.len(),
            area.names.as_mut_ptr(),
            area.names.len(),
            area.known.as_mut_ptr(),
            area.known.len(),
            area.chains.as_mut_ptr(),
            area.chains.len(),
            area.ends.as_mut_ptr(),
            area.ends.len(),
        )
    };
    rows_or_refusal(answer)
}

/// A declaration that a name means.
#[derive(Clone, Copy, Debug, PartialEq, Eq, Hash)]
pub struct Meant<'a> {
    /// The form in which it stands.
    pub of: Of,
    /// The row of its DECL there, counted from 0.
    pub row: usize,
    /// The row itself: 16 bytes of that form.
    pub bytes: &'a [u8],
}

/// Says which declaration the name in a row of a member means, if the member's root lies inside the prelude's.
///
/// Both are inputs, not resolved forms. A row that has no name, or is not there, means nothing. If the bytes are not forms,
/// their rows are looked at as they stand.
pub fn meant<'a>(prelude: &'a [u8], member: &'a [u8], row: u32) -> Option<Meant<'a>> {
    // SAFETY: both buffers are valid for their lengths while the call lasts. The library only reads them and keeps no
    // pointer.
    let answer = unsafe { wnt_meant(prelude.as_ptr(), prelude.len(), member.as_ptr(), member.len(), row) };
    let at = answer as u32 as usize;
    match answer >> 32 {
        1 => Some(Meant { of: Of::Member, row: at, bytes: row_of(member, at) }),
        2 => Some(Meant { of: Of::Prelude, row: at, bytes: row_of(prelude, at) }),
        _ => None,
    }
}

/// A row of a form. The header of version 2 is twice as long as that of version 1.
fn row_of(form: &[u8], row: usize) -> &[u8] {
    let header = if form[3] == 2 { 2 * HEADER_SIZE } else { HEADER_SIZE };
    let at = header + ROW_SIZE * row;
    &form[at..at + ROW_SIZE]
}
