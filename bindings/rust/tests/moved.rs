//! The numbers that have moved, as seen through the wrapper.

use wnt::{convert, moved, moved_with, resolve_with, Apart, Moved, Refusal, Version, WorkingArea};

/// A form of these rows, each its code, b, e, x, y, z.
fn form(rows: &[[u32; 6]]) -> Vec<u8> {
    let mut out = b"WNT\x01\x00\x00".to_vec();
    out.extend((rows.len() as u16).to_le_bytes());
    for [code, b, e, x, y, z] in rows {
        out.extend([*code as u8, *b as u8]);
        out.extend((*e as u16).to_le_bytes());
        for part in [x, y, z] {
            out.extend(part.to_le_bytes());
        }
    }
    out
}

/// An inner type names one outside; another refers to type `number` by its number.
fn inner(number: u32) -> Vec<u8> {
    form(&[
        [7, 0, 0, 0, 0, 0],
        [1, 12, 0, 0, 0, 0],
        [2, 9, 0, 1, 0, 0],
        [1, 6, 0, 0, 0, 0],
        [2, 11, 0, 0, 0, 0],
        [7, 0, 0, 0, 0, 0],
        [1, 12, 0, 0, 0, 0],
        [2, 9, 0, 3, 0, 0],
        [3, 9, 1, 1, 0, 70],
        [1, 12, 0, 0, 0, 0],
        [2, 9, 0, 4, 0, 0],
        [3, 9, 0, number, 0, 71],
        [8, 0, 0, 0, 0, 0],
        [8, 0, 0, 0, 0, 0],
    ])
}

#[test]
fn an_alias_moves_a_number() {
    let form = inner(0);
    let numbers = moved(&form).expect("the form is accepted");
    assert_eq!(numbers.resolved, wnt::resolve(&form).expect("the form is accepted"));
    assert_eq!(numbers.moved, [Moved { place: 71, space: 9, meant: 7, gets: 7 }]);
    assert_eq!(numbers.apart, []);
}

#[test]
fn a_number_without_an_item_is_apart() {
    let numbers = moved(&inner(2)).expect("the form is accepted");
    assert_eq!(numbers.moved, []);
    assert_eq!(numbers.apart, [Apart { place: 71, space: 9, number: 2 }]);
}

#[test]
fn without_insertions_nothing_moves() {
    let form =
        form(&[[7, 0, 0, 0, 0, 0], [1, 12, 0, 0, 0, 0], [2, 9, 0, 1, 0, 0], [3, 9, 0, 0, 0, 9], [8, 0, 0, 0, 0, 0]]);
    let numbers = moved(&form).expect("the form is accepted");
    assert_eq!((numbers.resolved, numbers.moved, numbers.apart), (form, vec![], vec![]));
}

#[test]
fn refusals_are_those_of_resolve() {
    for form in [vec![], b"WNT\x01\x00\x00\x00\x00".to_vec(), inner(0)[..200].to_vec()] {
        assert_eq!(moved(&form).map(|n| n.resolved), wnt::resolve(&form));
    }
    let mut unknown = inner(0);
    unknown[8 + 8 * 16 + 4] = 200;
    assert_eq!(moved(&unknown), Err(Refusal::UnknownName { place: 70, space: None }));
}

#[test]
fn both_versions_list_the_same_numbers() {
    let mut area = WorkingArea::new(Version::Two);
    for number in 0..3 {
        let first = inner(number);
        let second = convert(&first, Version::Two).expect("every form goes to version 2");
        let (one, two) = (moved_with(&first, &mut area), moved_with(&second, &mut area));
        assert_eq!(one, moved(&first));
        let (one, two) = (one.expect("the form is accepted"), two.expect("the form is accepted"));
        assert_eq!((two.moved, two.apart), (one.moved, one.apart));
        assert_eq!(Ok(two.resolved), resolve_with(&second, &mut area));
    }
}

#[test]
fn an_area_for_version_1_is_too_small_for_version_2() {
    let form = convert(&inner(0), Version::Two).expect("every form goes to version 2");
    assert_eq!(moved_with(&form, &mut WorkingArea::new(Version::One)), Err(Refusal::Room));
    assert_eq!(moved(&form), Err(Refusal::Header));
}
