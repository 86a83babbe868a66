//! Which declaration a member's name means, as seen through the wrapper.

use wnt::{meant, Meant, Of};

/// A row's parts: code, b, e, x, y, z.
type Row = [u32; 6];

/// The bytes of these rows.
fn bytes(rows: &[Row]) -> Vec<u8> {
    let mut out = Vec::new();
    for [code, b, e, x, y, z] in rows {
        out.extend([*code as u8, *b as u8]);
        out.extend((*e as u16).to_le_bytes());
        for part in [x, y, z] {
            out.extend(part.to_le_bytes());
        }
    }
    out
}

/// A form of version 1 whose root has this name and these rows inside.
fn form(name: u32, rows: &[Row]) -> Vec<u8> {
    let mut all = vec![[7, 0, 0, name, 0, 0]];
    all.extend(rows);
    all.push([8, 0, 0, 0, 0, 0]);
    let mut out = b"WNT\x01\x00\x00".to_vec();
    out.extend((all.len() as u16).to_le_bytes());
    out.extend(bytes(&all));
    out
}

/// The same form with the header of version 2.
fn second(form: &[u8]) -> Vec<u8> {
    let mut out = b"WNT\x02\x00\x00".to_vec();
    out.extend(&form[6..8]);
    out.extend([0; 8]);
    out.extend(&form[8..]);
    out
}

/// A root of name 9 with an instance 5 and the types 1 and 4.
fn prelude() -> Vec<u8> {
    let instance = [[1, 21, 0, 0, 0, 0], [2, 10, 0, 5, 0, 0], [3, 9, 0, 0, 0, 0]];
    let types = [[1, 12, 0, 0, 0, 0], [2, 9, 0, 1, 0, 0], [1, 12, 0, 0, 0, 0], [2, 9, 0, 4, 0, 0]];
    form(9, &[&instance[..], &types].concat())
}

/// A type 1 that names the type `name`, in row 3.
fn naming(name: u32) -> Vec<u8> {
    form(0, &[[1, 12, 0, 0, 0, 0], [2, 9, 0, 1, 0, 0], [3, 9, 1, name, 0, 70]])
}

#[test]
fn the_member_comes_before_the_prelude() {
    let (outer, inner) = (prelude(), naming(1));
    let own = [[2, 9, 0, 1, 0, 0]];
    assert_eq!(meant(&outer, &inner, 3), Some(Meant { of: Of::Member, row: 2, bytes: &bytes(&own) }));
    let inner = naming(4);
    let last = [[2, 9, 0, 4, 0, 0]];
    assert_eq!(meant(&outer, &inner, 3), Some(Meant { of: Of::Prelude, row: 7, bytes: &bytes(&last) }));
    assert_eq!(meant(&outer, &naming(8), 3), None);
}

#[test]
fn version_2_has_its_rows_behind_a_longer_header() {
    let (outer, inner) = (second(&prelude()), second(&naming(4)));
    let last = [[2, 9, 0, 4, 0, 0]];
    assert_eq!(meant(&outer, &inner, 3), Some(Meant { of: Of::Prelude, row: 7, bytes: &bytes(&last) }));
}

#[test]
fn the_instance_of_a_path_is_not_walked() {
    let path = form(0, &[[1, 22, 0, 0, 0, 0], [2, 9, 0, 3, 0, 0], [3, 9, 1, 5, 1, 40], [4, 0, 0, 7, 0, 0]]);
    assert_eq!(meant(&prelude(), &path, 3), None);
}

#[test]
fn an_outer_reaches_the_preludes_root() {
    let outer = |e, up| form(0, &[[1, 11, 0, 0, 0, 50], [2, 9, 0, 2, 0, 0], [5, 9, e, up, 4, 51]]);
    let at = |e, up| meant(&prelude(), &outer(e, up), 3).map(|m| (m.of, m.row));
    assert_eq!(at(2, 1), Some((Of::Prelude, 7)));
    assert_eq!(at(3, 9), Some((Of::Prelude, 7)));
    assert_eq!(at(2, 0), None);
    assert_eq!(at(2, 2), None);
    assert_eq!(at(3, 8), None);
}

#[test]
fn rows_without_a_name_mean_nothing() {
    let (outer, inner) = (prelude(), naming(4));
    for row in [0, 1, 2, 4, 5, 65535, 65536 + 3, u32::MAX] {
        assert_eq!(meant(&outer, &inner, row), None);
    }
    assert_eq!(meant(&[], &[], 3), None);
}
