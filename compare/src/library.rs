//! Our resolver, called as a C program calls it.

/// A slot of the tables that are lent.
pub type Slot = [u32; 6];

unsafe extern "C" {
    fn wnt_resolve(form: *const u8, form_len: usize, out: *mut u8, out_len: usize) -> u64;
    fn wnt_resolve_told(
        form: *const u8,
        form_len: usize,
        out: *mut u8,
        out_len: usize,
        told: *mut u32,
        told_len: usize,
    ) -> u64;
    fn wnt_mend(buffer: *mut u8, buffer_len: usize, length: usize, list: *mut u8, list_len: usize) -> u64;
    fn wnt_compare(
        left: *const u8,
        left_len: usize,
        right: *const u8,
        right_len: usize,
        choice: u32,
        list: *mut u8,
        list_len: usize,
    ) -> u64;
    fn wnt_unresolve(
        form: *const u8,
        form_len: usize,
        out: *mut u8,
        out_len: usize,
        restored: *mut u8,
        restored_len: usize,
        again: *mut u8,
        again_len: usize,
    ) -> u64;
    fn wnt_resolve_with(
        form: *const u8,
        form_len: usize,
        out: *mut u8,
        out_len: usize,
        entered: *mut Slot,
        entered_len: usize,
        names: *mut Slot,
        names_len: usize,
        known: *mut u16,
        known_len: usize,
        chains: *mut u16,
        chains_len: usize,
        ends: *mut u32,
        ends_len: usize,
    ) -> u64;
    fn wnt_convert(form: *const u8, form_len: usize, version: u32, out: *mut u8, out_len: usize) -> u64;
    fn wnt_check(
        form: *const u8,
        form_len: usize,
        claim: *const u8,
        claim_len: usize,
        table: *mut [u32; 6],
        slots: usize,
        index: *mut u16,
        links: usize,
    ) -> u64;
    fn wnt_share(
        form: *const u8,
        form_len: usize,
        out: *mut u8,
        out_len: usize,
        table: *mut [u32; 6],
        slots: usize,
        index: *mut u16,
        links: usize,
    ) -> u64;
    fn wnt_meant(prelude: *const u8, prelude_len: usize, member: *const u8, member_len: usize, row: u32) -> u64;
    fn wnt_batch(
        prelude: *const u8,
        prelude_len: usize,
        members: *const u8,
        members_len: usize,
        lengths: *const u32,
        lengths_len: usize,
        prelude_out: *mut u8,
        prelude_out_len: usize,
        outs: *mut u8,
        outs_len: usize,
        answers: *mut u8,
        answers_len: usize,
    ) -> u64;
    fn wnt_member(
        prelude: *const u8,
        prelude_len: usize,
        member: *const u8,
        member_len: usize,
        out: *mut u8,
        out_len: usize,
        work: *mut u8,
        work_len: usize,
    ) -> u64;
    fn wnt_moved(
        form: *const u8,
        form_len: usize,
        out: *mut u8,
        out_len: usize,
        moved: *mut u8,
        moved_len: usize,
        apart: *mut u8,
        apart_len: usize,
    ) -> u64;
    fn wnt_check_with(
        form: *const u8,
        form_len: usize,
        claim: *const u8,
        claim_len: usize,
        table: *mut Slot,
        table_len: usize,
        index: *mut u16,
        index_len: usize,
        entered: *mut Slot,
        entered_len: usize,
        names: *mut Slot,
        names_len: usize,
        known: *mut u16,
        known_len: usize,
        chains: *mut u16,
        chains_len: usize,
        ends: *mut u32,
        ends_len: usize,
    ) -> u64;
    fn wnt_moved_with(
        form: *const u8,
        form_len: usize,
        out: *mut u8,
        out_len: usize,
        moved: *mut u8,
        moved_len: usize,
        apart: *mut u8,
        apart_len: usize,
        entered: *mut Slot,
        entered_len: usize,
        names: *mut Slot,
        names_len: usize,
        known: *mut u16,
        known_len: usize,
        chains: *mut u16,
        chains_len: usize,
        ends: *mut u32,
        ends_len: usize,
    ) -> u64;
    fn wnt_sheet_with(
        form: *const u8,
        form_len: usize,
        resolved: *const u8,
        resolved_len: usize,
        sheet: *const u8,
        sheet_len: usize,
        answers: *mut u8,
        answers_len: usize,
        work: *mut u8,
        work_len: usize,
        entered: *mut Slot,
        entered_len: usize,
        names: *mut Slot,
        names_len: usize,
        known: *mut u16,
        known_len: usize,
        chains: *mut u16,
        chains_len: usize,
        ends: *mut u32,
        ends_len: usize,
    ) -> u64;
    fn wnt_sheet(
        form: *const u8,
        form_len: usize,
        resolved: *const u8,
        resolved_len: usize,
        sheet: *const u8,
        sheet_len: usize,
        answers: *mut u8,
        answers_len: usize,
        work: *mut u8,
        work_len: usize,
    ) -> u64;
    fn wnt_share_with(
        form: *const u8,
        form_len: usize,
        out: *mut u8,
        out_len: usize,
        marked: *mut u8,
        marked_len: usize,
        table: *mut Slot,
        table_len: usize,
        index: *mut u16,
        index_len: usize,
        entered: *mut Slot,
        entered_len: usize,
        names: *mut Slot,
        names_len: usize,
        known: *mut u16,
        known_len: usize,
        chains: *mut u16,
        chains_len: usize,
        ends: *mut u32,
        ends_len: usize,
    ) -> u64;
    fn wnt_unresolve_with(
        form: *const u8,
        form_len: usize,
        out: *mut u8,
        out_len: usize,
        restored: *mut u8,
        restored_len: usize,
        again: *mut u8,
        again_len: usize,
        noted: *mut Note,
        noted_len: usize,
        entered: *mut Slot,
        entered_len: usize,
        names: *mut Slot,
        names_len: usize,
        known: *mut u16,
        known_len: usize,
        chains: *mut u16,
        chains_len: usize,
        ends: *mut u32,
        ends_len: usize,
    ) -> u64;
    fn wnt_member_with(
        prelude: *const u8,
        prelude_len: usize,
        member: *const u8,
        member_len: usize,
        out: *mut u8,
        out_len: usize,
        work: *mut u8,
        work_len: usize,
        entered: *mut Slot,
        entered_len: usize,
        names: *mut Slot,
        names_len: usize,
        known: *mut u16,
        known_len: usize,
        chains: *mut u16,
        chains_len: usize,
        ends: *mut u32,
        ends_len: usize,
    ) -> u64;
    fn wnt_batch_with(
        prelude: *const u8,
        prelude_len: usize,
        members: *const u8,
        members_len: usize,
        lengths: *const u32,
        lengths_len: usize,
        prelude_out: *mut u8,
        prelude_out_len: usize,
        outs: *mut u8,
        outs_len: usize,
        answers: *mut u8,
        answers_len: usize,
        entered: *mut Slot,
        entered_len: usize,
        names: *mut Slot,
        names_len: usize,
        known: *mut u16,
        known_len: usize,
        chains: *mut u16,
        chains_len: usize,
        ends: *mut u32,
        ends_len: usize,
    ) -> u64;
}

/// The answer of `wnt_resolve`, which may write into `out`.
pub fn resolve(form: &[u8], out: &mut [u8]) -> u64 {
    // SAFETY: both parts are valid for their lengths, apart from each other, for as long as the call lasts.
    unsafe { wnt_resolve(form.as_ptr(), form.len(), out.as_mut_ptr(), out.len()) }
}

/// The answer of `wnt_resolve_told`, which may write into `out` and `told`.
pub fn resolve_told(form: &[u8], out: &mut [u8], told: &mut [u32]) -> u64 {
    // SAFETY: as above.
    unsafe { wnt_resolve_told(form.as_ptr(), form.len(), out.as_mut_ptr(), out.len(), told.as_mut_ptr(), told.len()) }
}

/// The working areas of `wnt_resolve_with`.
pub struct Areas<'a> {
    pub entered: &'a mut [Slot],
    pub names: &'a mut [Slot],
    pub known: &'a mut [u16],
    pub chains: &'a mut [u16],
    pub ends: &'a mut [u32],
}

/// The answer of `wnt_resolve_with`, which may write into `out` and into the areas.
pub fn resolve_with(form: &[u8], out: &mut [u8], areas: &mut Areas) -> u64 {
    let Areas { entered, names, known, chains, ends } = areas;
    // SAFETY: all parts are valid for their lengths, apart from each other, for as long as the call lasts.
    unsafe {
        wnt_resolve_with(
            form.as_ptr(),
            form.len(),
            out.as_mut_ptr(),
            out.len(),
            entered.as_mut_ptr(),
            entered.len(),
            names.as_mut_ptr(),
            names.len(),
            known.as_mut_ptr(),
            known.len(),
            chains.as_mut_ptr(),
            chains.len(),
            ends.as_mut_ptr(),
            ends.len(),
        )
    }
}

/// The answer of `wnt_convert`, which may write into `out`.
pub fn convert(form: &[u8], version: u32, out: &mut [u8]) -> u64 {
    // SAFETY: as above.
    unsafe { wnt_convert(form.as_ptr(), form.len(), version, out.as_mut_ptr(), out.len()) }
}

/// The answer of `wnt_mend`, which may write into both parts.
pub fn mend(buffer: &mut [u8], length: usize, list: &mut [u8]) -> u64 {
    // SAFETY: as above.
    unsafe { wnt_mend(buffer.as_mut_ptr(), buffer.len(), length, list.as_mut_ptr(), list.len()) }
}

/// The answer of `wnt_compare`, which may write into `list`.
pub fn compare(left: &[u8], right: &[u8], choice: u32, list: &mut [u8]) -> u64 {
    // SAFETY: the three parts are valid for their lengths, and `list` is apart from the others, for as long as the call
    // lasts.
    unsafe {
        wnt_compare(left.as_ptr(), left.len(), right.as_ptr(), right.len(), choice, list.as_mut_ptr(), list.len())
    }
}

/// The answer of `wnt_meant`.
pub fn meant(prelude: &[u8], member: &[u8], row: u32) -> u64 {
    // SAFETY: both parts are valid for their lengths for as long as the call lasts.
    unsafe { wnt_meant(prelude.as_ptr(), prelude.len(), member.as_ptr(), member.len(), row) }
}

/// The answer of `wnt_unresolve`, which may write into the last three parts.
pub fn unresolve(form: &[u8], out: &mut [u8], restored: &mut [u8], again: &mut [u8]) -> u64 {
    // SAFETY: all parts are valid for their lengths, and those that are written apart from each other and from the form, for as
    // long as the call lasts.
    unsafe {
        wnt_unresolve(
            form.as_ptr(),
            form.len(),
            out.as_mut_ptr(),
            out.len(),
            restored.as_mut_ptr(),
            restored.len(),
            again.as_mut_ptr(),
            again.len(),
        )
    }
}

/// The answer of `wnt_moved`, which may write into the last three parts.
pub fn moved(form: &[u8], out: &mut [u8], moved: &mut [u8], apart: &mut [u8]) -> u64 {
    // SAFETY: the four parts are valid for their lengths, apart from each other, for as long as the call lasts.
    unsafe {
        wnt_moved(
            form.as_ptr(),
            form.len(),
            out.as_mut_ptr(),
            out.len(),
            moved.as_mut_ptr(),
            moved.len(),
            apart.as_mut_ptr(),
            apart.len(),
        )
    }
}

/// The answer of `wnt_moved_with`, which may write into all but the form.
pub fn moved_with(form: &[u8], out: &mut [u8], moved: &mut [u8], apart: &mut [u8], areas: &mut Areas) -> u64 {
    let Areas { entered, names, known, chains, ends } = areas;
    // SAFETY: all parts are valid for their lengths, apart from each other, for as long as the call lasts.
    unsafe {
        wnt_moved_with(
            form.as_ptr(),
            form.len(),
            out.as_mut_ptr(),
            out.len(),
            moved.as_mut_ptr(),
            moved.len(),
            apart.as_mut_ptr(),
            apart.len(),
            entered.as_mut_ptr(),
            entered.len(),
            names.as_mut_ptr(),
            names.len(),
            known.as_mut_ptr(),
            known.len(),
            chains.as_mut_ptr(),
            chains.len(),
            ends.as_mut_ptr(),
            ends.len(),
        )
    }
}

/// What `wnt_sheet_with` is given to read.
pub struct Sheet<'a> {
    pub form: &'a [u8],
    pub resolved: &'a [u8],
    pub sheet: &'a [u8],
}

/// The answer of `wnt_sheet_with`, which may write into `answers`, `work` and the areas.
pub fn sheet_with(read: &Sheet, answers: &mut [u8], work: &mut [u8], areas: &mut Areas) -> u64 {
    let Sheet { form, resolved, sheet } = read;
    let Areas { entered, names, known, chains, ends } = areas;
    // SAFETY: all parts are valid for their lengths, and those that are written are apart from each other, for as long as
    // the call lasts.
    unsafe {
        wnt_sheet_with(
            form.as_ptr(),
            form.len(),
            resolved.as_ptr(),
            resolved.len(),
            sheet.as_ptr(),
            sheet.len(),
            answers.as_mut_ptr(),
            answers.len(),
            work.as_mut_ptr(),
            work.len(),
            entered.as_mut_ptr(),
            entered.len(),
            names.as_mut_ptr(),
            names.len(),
            known.as_mut_ptr(),
            known.len(),
            chains.as_mut_ptr(),
            chains.len(),
            ends.as_mut_ptr(),
            ends.len(),
        )
    }
}

/// The answer of `wnt_check`, which works in `table` and `index`.
pub fn share(form: &[u8], out: &mut [u8], table: &mut [[u32; 6]], index: &mut [u16]) -> u64 {
    let (slots, links) = (table.len(), index.len());
    // SAFETY: the four parts are valid for their lengths and apart from each other for as long as the call lasts.
    unsafe {
        wnt_share(
            form.as_ptr(),
            form.len(),
            out.as_mut_ptr(),
            out.len(),
            table.as_mut_ptr(),
            slots,
            index.as_mut_ptr(),
            links,
        )
    }
}

pub fn check(form: &[u8], claim: &[u8], table: &mut [[u32; 6]], index: &mut [u16]) -> u64 {
    let (slots, links) = (table.len(), index.len());
    // SAFETY: the four parts are valid for their lengths, and the last two are apart from the others, for as long as the
    // call lasts.
    unsafe {
        wnt_check(
            form.as_ptr(),
            form.len(),
            claim.as_ptr(),
            claim.len(),
            table.as_mut_ptr(),
            slots,
            index.as_mut_ptr(),
            links,
        )
    }
}

/// The answer of `wnt_check_with`, which works in all but the form and the claim.
pub fn check_with(form: &[u8], claim: &[u8], table: &mut [Slot], index: &mut [u16], areas: &mut Areas) -> u64 {
    let Areas { entered, names, known, chains, ends } = areas;
    // SAFETY: all parts are valid for their lengths, and those that are written are apart from each other, for as long as
    // the call lasts.
    unsafe {
        wnt_check_with(
            form.as_ptr(),
            form.len(),
            claim.as_ptr(),
            claim.len(),
            table.as_mut_ptr(),
            table.len(),
            index.as_mut_ptr(),
            index.len(),
            entered.as_mut_ptr(),
            entered.len(),
            names.as_mut_ptr(),
            names.len(),
            known.as_mut_ptr(),
            known.len(),
            chains.as_mut_ptr(),
            chains.len(),
            ends.as_mut_ptr(),
            ends.len(),
        )
    }
}

/// The answer of `wnt_sheet`, which writes into `answers` and works in `work`.
pub fn sheet(form: &[u8], resolved: &[u8], sheet: &[u8], answers: &mut [u8], work: &mut [u8]) -> u64 {
    // SAFETY: the five parts are valid for their lengths, and the last two are apart from the others, for as long as the
    // call lasts.
    unsafe {
        wnt_sheet(
            form.as_ptr(),
            form.len(),
            resolved.as_ptr(),
            resolved.len(),
            sheet.as_ptr(),
            sheet.len(),
            answers.as_mut_ptr(),
            answers.len(),
            work.as_mut_ptr(),
            work.len(),
        )
    }
}

/// The answer of `wnt_member`, which may write into `out` and `work`.
pub fn member(prelude: &[u8], member: &[u8], out: &mut [u8], work: &mut [u8]) -> u64 {
    let (form, area) = ((member.as_ptr(), member.len()), (work.as_mut_ptr(), work.len()));
    // SAFETY: the four parts are valid for their lengths, and the last two apart from all others, for as long as the call
    // lasts.
    unsafe { wnt_member(prelude.as_ptr(), prelude.len(), form.0, form.1, out.as_mut_ptr(), out.len(), area.0, area.1) }
}

/// The buffers of a batch: the prelude's output, the members' and that of their answers.
#[derive(Clone, PartialEq)]
pub struct Buffers {
    pub prelude: Vec<u8>,
    pub outs: Vec<u8>,
    pub answers: Vec<u8>,
}

/// The answer of `wnt_batch`, which may write into the buffers.
pub fn batch(prelude: &[u8], members: &[Vec<u8>], into: &mut Buffers) -> u64 {
    let lengths: Vec<u32> = members.iter().map(|member| member.len() as u32).collect();
    let all = members.concat();
    // SAFETY: the six parts are valid for their lengths, and the last three apart from all others, for as long as the call
    // lasts.
    unsafe {
        wnt_batch(
            prelude.as_ptr(),
            prelude.len(),
            all.as_ptr(),
            all.len(),
            lengths.as_ptr(),
            lengths.len(),
            into.prelude.as_mut_ptr(),
            into.prelude.len(),
            into.outs.as_mut_ptr(),
            into.outs.len(),
            into.answers.as_mut_ptr(),
            into.answers.len(),
        )
    }
}

/// The answer of `wnt_share_with`, which may write into all but the form.
pub fn share_with(
    form: &[u8],
    out: &mut [u8],
    marked: &mut [u8],
    table: &mut [Slot],
    index: &mut [u16],
    areas: &mut Areas,
) -> u64 {
    let Areas { entered, names, known, chains, ends } = areas;
    // SAFETY: all parts are valid for their lengths, and those that are written are apart from all others, for as long as the
    // call lasts.
    unsafe {
        wnt_share_with(
            form.as_ptr(),
            form.len(),
            out.as_mut_ptr(),
            out.len(),
            marked.as_mut_ptr(),
            marked.len(),
            table.as_mut_ptr(),
            table.len(),
            index.as_mut_ptr(),
            index.len(),
            entered.as_mut_ptr(),
            entered.len(),
            names.as_mut_ptr(),
            names.len(),
            known.as_mut_ptr(),
            known.len(),
            chains.as_mut_ptr(),
            chains.len(),
            ends.as_mut_ptr(),
            ends.len(),
        )
    }
}

/// A note of the way back.
pub type Note = [u32; 2];

/// The answer of `wnt_unresolve_with`, which may write into all but the form.
pub fn unresolve_with(
    form: &[u8],
    out: &mut [u8],
    restored: &mut [u8],
    again: &mut [u8],
    noted: &mut [Note],
    areas: &mut Areas,
) -> u64 {
    let Areas { entered, names, known, chains, ends } = areas;
    // SAFETY: all parts are valid for their lengths, and those that are written are apart from all others, for as long as the
    // call lasts.
    unsafe {
        wnt_unresolve_with(
            form.as_ptr(),
            form.len(),
            out.as_mut_ptr(),
            out.len(),
            restored.as_mut_ptr(),
            restored.len(),
            again.as_mut_ptr(),
            again.len(),
            noted.as_mut_ptr(),
            noted.len(),
            entered.as_mut_ptr(),
            entered.len(),
            names.as_mut_ptr(),
            names.len(),
            known.as_mut_ptr(),
            known.len(),
            chains.as_mut_ptr(),
            chains.len(),
            ends.as_mut_ptr(),
            ends.len(),
        )
    }
}

/// The answer of `wnt_member_with`, which may write into `out`, `work` and the areas.
pub fn member_with(prelude: &[u8], member: &[u8], out: &mut [u8], work: &mut [u8], areas: &mut Areas) -> u64 {
    let Areas { entered, names, known, chains, ends } = areas;
    // SAFETY: all parts are valid for their lengths, and those that are written are apart from all others, for as long as the
    // call lasts.
    unsafe {
        wnt_member_with(
            prelude.as_ptr(),
            prelude.len(),
            member.as_ptr(),
            member.len(),
            out.as_mut_ptr(),
            out.len(),
            work.as_mut_ptr(),
            work.len(),
            entered.as_mut_ptr(),
            entered.len(),
            names.as_mut_ptr(),
            names.len(),
            known.as_mut_ptr(),
            known.len(),
            chains.as_mut_ptr(),
            chains.len(),
            ends.as_mut_ptr(),
            ends.len(),
        )
    }
}

/// The answer of `wnt_batch_with`, which may write into the buffers and the areas.
pub fn batch_with(prelude: &[u8], members: &[Vec<u8>], into: &mut Buffers, areas: &mut Areas) -> u64 {
    let lengths: Vec<u32> = members.iter().map(|member| member.len() as u32).collect();
    let all = members.concat();
    let Buffers { prelude: prelude_out, outs, answers } = into;
    let Areas { entered, names, known, chains, ends } = areas;
    // SAFETY: all parts are valid for their lengths, and those that are written are apart from all others, for as long as the
    // call lasts.
    unsafe {
        wnt_batch_with(
            prelude.as_ptr(),
            prelude.len(),
            all.as_ptr(),
            all.len(),
            lengths.as_ptr(),
            lengths.len(),
            prelude_out.as_mut_ptr(),
            prelude_out.len(),
            outs.as_mut_ptr(),
            outs.len(),
            answers.as_mut_ptr(),
            answers.len(),
            entered.as_mut_ptr(),
            entered.len(),
            names.as_mut_ptr(),
            names.len(),
            known.as_mut_ptr(),
            known.len(),
            chains.as_mut_ptr(),
            chains.len(),
            ends.as_mut_ptr(),
            ends.len(),
        )
    }
}
