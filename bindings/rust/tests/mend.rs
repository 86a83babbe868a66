//! Mending, as seen through the wrapper: a sound form, spoilt ones, and one that cannot be mended.

use wnt::{mend, Change, Refusal};

/// The empty component: its OPEN and its CLOSE.
fn empty() -> Vec<u8> {
    let mut form = b"WNT\x01\x00\x00\x02\x00".to_vec();
    form.extend([7, 0, 0, 0, 0, 0, 0, 0, 0, 0, 0, 0, 0, 0, 0, 0]);
    form.extend([8, 0, 0, 0, 0, 0, 0, 0, 0, 0, 0, 0, 0, 0, 0, 0]);
    form
}

#[test]
fn a_sound_form_stays() {
    assert_eq!(mend(&empty()), Ok((empty(), Vec::new())));
}

#[test]
fn a_cut_form_gets_its_close_back() {
    let mut form = empty();
    form.truncate(28);
    let lost = Change { offset: 24, before: vec![8, 0, 0, 0], now: 16 };
    assert_eq!(mend(&form), Ok((empty(), vec![lost])));
}

#[test]
fn byte_5_and_parts_that_are_zero_become_zero() {
    let mut form = empty();
    form[5] = 9;
    form[36] = 3;
    let flags = Change { offset: 5, before: vec![9], now: 1 };
    let z = Change { offset: 36, before: vec![3, 0, 0, 0], now: 4 };
    assert_eq!(mend(&form), Ok((empty(), vec![flags, z])));
}

#[test]
fn rows_behind_the_roots_close_are_cut() {
    let mut form = empty();
    form.extend([1; 20]);
    let cut = Change { offset: 40, before: vec![1; 20], now: 0 };
    assert_eq!(mend(&form), Ok((empty(), vec![cut])));
}

#[test]
fn what_is_no_form_is_refused() {
    assert_eq!(mend(b"WNT"), Err(Refusal::Header));
    assert_eq!(mend(&empty()[..8]), Err(Refusal::RowCount));
    let mut form = empty();
    form[8] = 8;
    assert_eq!(mend(&form), Err(Refusal::Broken { row: 0 }));
}

#[test]
fn a_form_of_version_2_is_mended_under_its_rule_set() {
    let rows = empty()[8..].to_vec();
    let form = |header: &[u8], rows: &[u8]| [header, rows].concat();
    let sound = form(b"WNT\x02\x00\x01\x02\x00\x00\x00\x00\x00\x00\x00\x00\x00", &rows);
    assert_eq!(mend(&sound), Ok((sound.clone(), Vec::new())));
    let spoilt = form(b"WNT\x02\x00\x01\x09\x00\x00\x01\x00\x05\x00\x00\x00\x00", &rows[..16]);
    let count = Change { offset: 6, before: vec![9, 0, 0, 1], now: 4 };
    let zeros = Change { offset: 10, before: vec![0, 5, 0, 0, 0, 0], now: 6 };
    let close = Change { offset: 32, before: Vec::new(), now: 16 };
    assert_eq!(mend(&spoilt), Ok((sound, vec![count, zeros, close])));
    let other = form(b"WNT\x02\x00\x02\x02\x00\x00\x00\x00\x00\x00\x00\x00\x00", &rows);
    assert_eq!(mend(&other), Err(Refusal::Header));
}
