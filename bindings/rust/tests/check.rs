//! Another assembler's output checked, as seen through the wrapper.

use wnt::{
    check, check_either, check_either_with, check_with, resolve, resolve_with, Condition, Refusal, Verdict, Version,
    WorkingArea, CHECK_LINKS, CHECK_LINKS_2, CHECK_SLOTS, CHECK_SLOTS_2,
};

/// A row's parts: code, b, e, x, y, z.
type Row = [u32; 6];

const ROOT: Row = [7, 0, 0, 0, 0, 0];
const CLOSE: Row = [8, 0, 0, 0, 0, 0];
const TYPE: [Row; 2] = [[1, 12, 0, 0, 0, 1], [2, 9, 0, 1, 0, 2]];
const INNER: [Row; 3] = [[1, 6, 0, 0, 0, 3], [2, 11, 0, 0, 0, 4], ROOT];

fn form(rows: &[Row]) -> Vec<u8> {
    let mut out = b"WNT\x01\x00\x00".to_vec();
    out.extend((rows.len() as u16).to_le_bytes());
    for [code, b, e, x, y, z] in rows {
        out.extend([*code as u8, *b as u8]);
        out.extend((*e as u16).to_le_bytes());
        for part in [x, y, z] {
            out.extend(part.to_le_bytes());
        }
    }
    out
}

/// A type, and a component inside with two references to it.
fn input() -> Vec<u8> {
    let refers: [Row; 4] = [[1, 12, 0, 0, 0, 5], [2, 9, 0, 7, 0, 6], [3, 9, 1, 1, 0, 70], [3, 9, 1, 1, 0, 71]];
    form(&[&[ROOT][..], &TYPE, &INNER, &refers, &[CLOSE, CLOSE]].concat())
}

/// A partner's output for it: both references share one alias, which stands after the field that needs it.
fn shared(count: u32, first: u32, second: u32) -> Vec<u8> {
    let refers: [Row; 4] = [[1, 12, 0, 0, 0, 5], [2, 9, 0, 7, 0, 6], [3, 9, 0, first, 0, 70], [3, 9, 0, second, 0, 71]];
    let alias: [Row; 3] = [[1, 11, 0, 0, 0, 0], [2, 9, 0, 4_000_000_000, 0, 0], [5, 9, 0, count, 0, 0]];
    form(&[&[ROOT][..], &TYPE, &INNER, &refers, &alias, &[CLOSE, CLOSE]].concat())
}

#[test]
fn an_own_output_is_accepted() {
    let output = resolve(&input()).expect("it is accepted");
    assert_eq!(check(&input(), &output), Ok(Verdict::Yes));
}

#[test]
fn a_shared_alias_is_accepted_wherever_it_stands() {
    assert_eq!(check(&input(), &shared(1, 1, 1)), Ok(Verdict::Yes));
}

#[test]
fn a_wrong_number_is_named_by_its_row() {
    let no = Ok(Verdict::No { condition: Condition::Operands, row: 9 });
    assert_eq!(check(&input(), &shared(1, 1, 0)), no);
}

#[test]
fn a_wrong_alias_is_named_by_the_operand_that_uses_it() {
    let no = Ok(Verdict::No { condition: Condition::Operands, row: 8 });
    assert_eq!(check(&input(), &shared(0, 1, 1)), no);
}

#[test]
fn an_input_is_no_output_of_itself() {
    assert_eq!(check(&input(), &input()), Ok(Verdict::No { condition: Condition::Operands, row: 8 }));
}

#[test]
fn the_other_conditions() {
    let no = |condition, row| Ok(Verdict::No { condition, row });
    let mut cut = shared(1, 1, 1);
    cut.truncate(8 + 16 * 13);
    cut[6] = 13;
    assert_eq!(check(&input(), &cut), no(Condition::Form, 13));
    let mut moved = shared(1, 1, 1);
    moved[8 + 16 * 6 + 12] = 9;
    assert_eq!(check(&input(), &moved), no(Condition::Rows, 6));
    let mut named = shared(1, 1, 1);
    named[8 + 16 * 12 + 2] = 2;
    named[8 + 16 * 12 + 8] = 1;
    assert_eq!(check(&input(), &named), no(Condition::Aliases, 12));
}

#[test]
fn a_refused_input_is_answered_with_its_refusal() {
    assert_eq!(check(b"WNT", &shared(1, 1, 1)), Err(Refusal::Header));
}

#[test]
fn areas_are_zero_up_to_their_sizes() {
    let (mut table, mut index) = (vec![[9; 6]; CHECK_SLOTS + 1], vec![9; CHECK_LINKS + 1]);
    assert_eq!(check_with(&input(), &shared(1, 1, 1), &mut table, &mut index), Ok(Verdict::Yes));
    assert!(table[..CHECK_SLOTS].iter().all(|slot| *slot == [0; 6]) && table[CHECK_SLOTS] == [9; 6]);
    assert!(index[..CHECK_LINKS].iter().all(|link| *link == 0) && index[CHECK_LINKS] == 9);
    let short = check_with(&input(), &shared(1, 1, 1), &mut table[..CHECK_SLOTS - 1], &mut index);
    assert_eq!(short, Err(Refusal::Room));
}

/// The same rows behind a header of version 2.
fn second(form: &[u8]) -> Vec<u8> {
    [b"WNT\x02\x00\x00".as_slice(), &form[6..8], &[0; 8], &form[8..]].concat()
}

#[test]
fn both_versions_get_the_same_verdict() {
    let mut area = WorkingArea::new(Version::Two);
    let own = resolve(&input()).expect("it is accepted");
    assert_eq!(resolve_with(&second(&input()), &mut area), Ok(second(&own)));
    for claim in [own, shared(1, 1, 1), shared(1, 1, 0), shared(0, 1, 1), input()] {
        let said = check(&input(), &claim);
        assert_eq!(check_either(&input(), &claim, &mut area), said);
        assert_eq!(check_either(&second(&input()), &second(&claim), &mut area), said);
    }
}

#[test]
fn a_claim_of_the_other_version_is_no_form_of_the_input() {
    let mut area = WorkingArea::new(Version::Two);
    let own = resolve(&input()).expect("it is accepted");
    let no = Ok(Verdict::No { condition: Condition::Form, row: 0 });
    assert_eq!(check_either(&second(&input()), &own, &mut area), no);
    assert_eq!(check_either(&input(), &second(&own), &mut area), no);
    assert_eq!(check(&second(&input()), &second(&own)), Err(Refusal::Header));
}

#[test]
fn areas_of_version_1_are_too_small_for_version_2() {
    let (form, mut area) = (second(&input()), WorkingArea::new(Version::Two));
    let claim = resolve_with(&form, &mut area).expect("it is accepted");
    assert_eq!(check_either(&form, &claim, &mut WorkingArea::new(Version::One)), Err(Refusal::Room));
    for (slots, links) in [(CHECK_SLOTS_2 - 1, CHECK_LINKS_2), (CHECK_SLOTS_2, CHECK_LINKS_2 - 1)] {
        let (mut table, mut index) = (vec![[1; 6]; slots], vec![1; links]);
        assert_eq!(check_either_with(&form, &claim, &mut table, &mut index, &mut area), Err(Refusal::Room));
        assert!(table.iter().all(|slot| *slot == [0; 6]) && index.iter().all(|number| *number == 0));
    }
}

#[test]
fn areas_are_empty_up_to_the_size_of_version_2() {
    let (form, mut area) = (second(&input()), WorkingArea::new(Version::Two));
    let claim = resolve_with(&form, &mut area).expect("it is accepted");
    let (mut table, mut index) = (vec![[7; 6]; CHECK_SLOTS_2 + 1], vec![7; CHECK_LINKS_2 + 1]);
    assert_eq!(check_either_with(&form, &claim, &mut table, &mut index, &mut area), Ok(Verdict::Yes));
    assert!(table[..CHECK_SLOTS_2].iter().all(|slot| *slot == [0; 6]) && table[CHECK_SLOTS_2] == [7; 6]);
    assert!(index[..CHECK_LINKS_2].iter().all(|number| *number == 0) && index[CHECK_LINKS_2] == 7);
}
