//! What a comparison lists, as seen through the wrapper.

use wnt::{compare, Choice, Entry, Kind, Refusal};

/// A row's parts: code, b, e, x, y, z.
type Row = [u32; 6];

/// The bytes of these rows.
fn bytes(rows: &[Row]) -> Vec<u8> {
    let mut out = Vec::new();
    for [code, b, e, x, y, z] in rows {
        out.extend([*code as u8, *b as u8]);
        out.extend((*e as u16).to_le_bytes());
        for part in [x, y, z] {
            out.extend(part.to_le_bytes());
        }
    }
    out
}

/// A form whose root has this name and these rows inside.
fn form(name: u32, rows: &[Row]) -> Vec<u8> {
    let mut all = vec![[7, 0, 0, name, 0, 0]];
    all.extend(rows);
    all.push([8, 0, 0, 0, 0, 0]);
    let mut out = b"WNT\x01\x00\x00".to_vec();
    out.extend((all.len() as u16).to_le_bytes());
    out.extend(bytes(&all));
    out
}

/// A type of this name at this place.
fn named(name: u32, z: u32) -> [Row; 2] {
    [[1, 12, 0, 0, 0, z], [2, 9, 0, name, 0, z]]
}

const ALL: Choice = Choice { ignore_places: false, ignore_fresh: false };

#[test]
fn equal_forms_have_an_empty_list() {
    let build = form(3, &named(1, 5));
    assert_eq!(compare(&build, &build, ALL), Ok(vec![]));
}

#[test]
fn a_changed_field_is_a_pair() {
    let changed = Entry { kind: Kind::Differing, left: 1, left_rows: 2, right: 1, rows: bytes(&named(2, 5)) };
    assert_eq!(compare(&form(3, &named(1, 5)), &form(3, &named(2, 5)), ALL), Ok(vec![changed]));
}

#[test]
fn places_can_be_ignored() {
    let choice = Choice { ignore_places: true, ..ALL };
    assert_eq!(compare(&form(3, &named(1, 5)), &form(3, &named(1, 6)), choice), Ok(vec![]));
}

#[test]
fn fresh_names_can_be_ignored_and_are_no_original_name() {
    let choice = Choice { ignore_fresh: true, ..ALL };
    let fresh = form(3, &named(2147483648, 5));
    assert_eq!(compare(&fresh, &form(3, &named(2147483650, 5)), choice), Ok(vec![]));
    assert_eq!(compare(&fresh, &form(3, &named(2147483647, 5)), choice).map(|list| list.len()), Ok(1));
}

#[test]
fn the_left_is_refused_first() {
    let build = form(3, &named(1, 5));
    assert_eq!(compare(&build[..40], &[], ALL), Err(Refusal::RowCount));
    assert_eq!(compare(&build, &[], ALL), Err(Refusal::Header));
}
