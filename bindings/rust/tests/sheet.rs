//! Binding sheets, as seen through the wrapper.

use wnt::{
    convert, resolve, resolve_with, sheet, sheet_bytes, sheet_into, sheet_with, Binding, Refusal, Slot, Version,
    WorkingArea, MAX_SLOTS, SHEET_AREA_SIZE,
};

/// A form of these rows, each its code, b, e, x, y, z.
fn form(rows: &[[u32; 6]]) -> Vec<u8> {
    let mut out = b"WNT\x01\x00\x00".to_vec();
    out.extend((rows.len() as u16).to_le_bytes());
    for [code, b, e, x, y, z] in rows {
        out.extend([*code as u8, *b as u8]);
        out.extend((*e as u16).to_le_bytes());
        for part in [x, y, z] {
            out.extend(part.to_le_bytes());
        }
    }
    out
}

/// An inner type names one outside (place 70); another refers to type 0 by its number (place 71), which the alias has moved;
/// a third refers twice at place 72, and a path stands at place 73.
fn driver() -> Vec<u8> {
    form(&[
        [7, 0, 0, 0, 0, 0],
        [1, 12, 0, 0, 0, 0],
        [2, 9, 0, 1, 0, 0],
        [1, 6, 0, 0, 0, 0],
        [2, 11, 0, 0, 0, 0],
        [7, 0, 0, 0, 0, 0],
        [1, 12, 0, 0, 0, 0],
        [2, 9, 0, 3, 0, 0],
        [3, 9, 1, 1, 0, 70],
        [1, 13, 0, 0, 0, 0],
        [2, 9, 0, 4, 0, 0],
        [3, 9, 0, 0, 0, 71],
        [3, 9, 1, 3, 0, 72],
        [3, 9, 1, 4, 0, 72],
        [8, 0, 0, 0, 0, 0],
        [8, 0, 0, 0, 0, 0],
    ])
}

fn slot(place: u32, name: u32) -> Slot {
    Slot { family: 3, place, name }
}

#[test]
fn each_slot_is_answered() {
    let form = driver();
    let resolved = resolve(&form).expect("the form is accepted");
    let slots = [slot(70, 1), slot(70, 3), slot(71, 3), slot(71, 1), slot(72, 3), slot(5, 1)];
    let expected = [
        Binding::AsWritten,
        Binding::Elsewhere { row: 2 },
        // The number 0 now reaches the inserted alias, and through it the type outside.
        Binding::Elsewhere { row: 2 },
        Binding::AsWritten,
        Binding::Several,
        Binding::NoReference,
    ];
    assert_eq!(sheet(&form, &resolved, &slots), Ok(expected.to_vec()));
}

#[test]
fn an_empty_sheet_passes() {
    let form = driver();
    assert_eq!(sheet(&form, &resolve(&form).expect("the form is accepted"), &[]), Ok(vec![]));
}

#[test]
fn only_its_resolved_form_is_taken() {
    let form = driver();
    let resolved = resolve(&form).expect("the form is accepted");
    let refused = Err(Refusal::NotItsSheet);
    let mut other = resolved.clone();
    other[8 + 15] ^= 1;
    assert_eq!(sheet(&form, &other, &[]), refused);
    assert_eq!(sheet(&form, &form, &[]), refused);
    assert_eq!(sheet(&form, &resolved[..resolved.len() - 1], &[]), refused);
    assert_eq!(sheet(&form[..40], &resolved, &[]), refused);
    assert_eq!(sheet(&form, &resolved, &[slot(70, 0)]), refused);
    assert!(sheet(&form, &resolved, &[slot(70, 1); MAX_SLOTS]).is_ok());
    assert_eq!(sheet(&form, &resolved, &[slot(70, 1); MAX_SLOTS + 1]), refused);
}

#[test]
fn buffers_are_left_as_said() {
    let form = driver();
    let resolved = resolve(&form).expect("the form is accepted");
    let bytes = sheet_bytes(&[slot(70, 1), slot(71, 3)]);
    let (mut answers, mut work) = ([7; 20], vec![7; SHEET_AREA_SIZE + 3]);
    assert_eq!(sheet_into(&form, &resolved, &bytes, &mut answers, &mut work), Ok(1));
    assert_eq!(answers, [0, 0, 0, 0, 0, 0, 0, 0, 1, 0, 0, 0, 2, 0, 0, 0, 7, 7, 7, 7]);
    assert!(work[..SHEET_AREA_SIZE].iter().all(|&byte| byte == 0) && work[SHEET_AREA_SIZE..] == [7; 3]);

    // The sheet comes before the working area, that before the forms, and these before the room for the answers.
    let mut few = [7; 15];
    let mut small = vec![7; SHEET_AREA_SIZE - 1];
    assert_eq!(sheet_into(&form, &form, &bytes[1..], &mut few, &mut small), Err(Refusal::NotItsSheet));
    assert!(small.iter().all(|&byte| byte == 0));
    assert_eq!(sheet_into(&form, &form, &bytes, &mut few, &mut small), Err(Refusal::Room));
    assert_eq!(sheet_into(&form, &form, &bytes, &mut few, &mut work), Err(Refusal::NotItsSheet));
    assert_eq!(sheet_into(&form, &resolved, &bytes, &mut few, &mut work), Err(Refusal::Room));
    assert_eq!(few, [7; 15]);
}

#[test]
fn both_versions_answer_the_same() {
    let first = driver();
    let second = convert(&first, Version::Two).expect("every form goes to version 2");
    let mut area = WorkingArea::new(Version::Two);
    let resolved = resolve_with(&second, &mut area).expect("the form is accepted");
    let slots = [slot(70, 1), slot(71, 3), slot(72, 3), slot(73, 1)];
    let answers = sheet(&first, &resolve(&first).expect("the form is accepted"), &slots);
    assert!(answers.is_ok());
    assert_eq!(sheet_with(&first, &resolve(&first).expect("the form is accepted"), &slots, &mut area), answers);
    assert_eq!(sheet_with(&second, &resolved, &slots, &mut area), answers);
    assert_eq!(sheet_with(&second, &second, &slots, &mut area), Err(Refusal::NotItsSheet));
    assert_eq!(sheet_with(&second, &resolved, &[slot(70, 0)], &mut area), Err(Refusal::NotItsSheet));
    assert_eq!(sheet_with(&second, &resolved, &slots, &mut WorkingArea::new(Version::One)), Err(Refusal::Room));
    assert_eq!(sheet(&second, &resolved, &slots), Err(Refusal::NotItsSheet));
}
