//! Forms of both versions through the wrapper: resolved in a working area that is lent, and converted.

use std::fs;
use wnt::{convert, resolve, resolve_into_with, resolve_with, Refusal, Version, WorkingArea};

/// What the output is filled with, to see which bytes were changed.
const FILLED: u8 = 0xa5;

const OPEN: [u8; 16] = [7, 0, 0, 0, 0, 0, 0, 0, 0, 0, 0, 0, 0, 0, 0, 0];
const CLOSE: [u8; 16] = [8, 0, 0, 0, 0, 0, 0, 0, 0, 0, 0, 0, 0, 0, 0, 0];
const CUSTOM: [u8; 16] = [1, 25, 0, 0, 0, 0, 0, 0, 0, 0, 0, 0, 0, 0, 0, 0];

/// The header of a form of version 2 with `rows` rows.
fn header(rows: usize) -> Vec<u8> {
    [b"WNT\x02\x00\x00", &(rows as u32).to_le_bytes()[..], &[0; 6]].concat()
}

/// A form of version 2 with `rows` rows: a root and, inside it, custom sections alone.
fn customs(rows: usize) -> Vec<u8> {
    let mut form = header(rows);
    form.extend(OPEN);
    form.extend(CUSTOM.repeat(rows - 2));
    form.extend(CLOSE);
    form
}

/// A form of version 2 with components one inside another, `scopes` of them.
fn nested(scopes: usize) -> Vec<u8> {
    let field = |code: u8, b: u8| [&[code, b][..], &[0; 14]].concat();
    let mut form = header(4 * scopes - 2);
    form.extend(OPEN);
    for _ in 1..scopes {
        form.extend([field(1, 6), field(2, 11), OPEN.to_vec()].concat());
    }
    form.extend(CLOSE.repeat(scopes));
    form
}

fn example(name: &str) -> Vec<u8> {
    let file = format!("{}/../../examples/{name}.wnt", env!("CARGO_MANIFEST_DIR"));
    fs::read(&file).unwrap_or_else(|problem| panic!("{file}: {problem}"))
}

fn second() -> WorkingArea {
    WorkingArea::new(Version::Two)
}

#[test]
fn version_1_is_resolved_as_without_an_area() {
    let driver = example("driver/driver");
    assert_eq!(resolve_with(&driver, &mut WorkingArea::new(Version::One)), resolve(&driver));
    assert_eq!(resolve_with(&driver, &mut second()), resolve(&driver));
    assert_eq!(
        resolve_with(&example("refused/9"), &mut second()),
        Err(Refusal::UnknownName { place: 70, space: None })
    );
}

#[test]
fn version_2_is_resolved_to_the_same_rows() {
    let driver = example("driver/driver");
    let larger = convert(&driver, Version::Two).expect("every form of version 1 goes");
    assert_eq!(Version::of(&larger), Some(Version::Two));
    assert_eq!(resolve(&larger), Err(Refusal::Header));
    let resolved = resolve_with(&larger, &mut second()).expect("the driver is accepted");
    assert_eq!(resolved[..16], header(73));
    assert_eq!(resolved[16..], resolve(&driver).expect("the driver is accepted")[8..]);
}

#[test]
fn an_area_is_used_again_and_again() {
    let (mut area, driver) = (second(), example("driver/driver"));
    for _ in 0..3 {
        assert_eq!(resolve_with(&driver, &mut area), resolve(&driver));
        assert_eq!(resolve_with(&customs(16_383), &mut area), Ok(customs(16_383)));
        // it does not tell the space and the first place, as `resolve` does
        let why = Refusal::DuplicateName { place: 20, space: None, first: None };
        assert_eq!(resolve_with(&example("refused/6"), &mut area), Err(why));
    }
}

#[test]
fn version_2_has_limits_of_its_own() {
    let mut area = second();
    assert_eq!(resolve_with(&customs(16_383), &mut area), Ok(customs(16_383)));
    assert_eq!(resolve_with(&customs(16_384), &mut area), Err(Refusal::RowCount));
    assert_eq!(resolve_with(&nested(64), &mut area), Ok(nested(64)));
    assert_eq!(resolve_with(&nested(65), &mut area), Err(Refusal::Deep { row: 192 }));
    assert_eq!(resolve_with(&header(1)[..15], &mut area), Err(Refusal::Header));
    for at in 10..16 {
        let mut form = customs(2);
        form[at] = 1;
        assert_eq!(resolve_with(&form, &mut area), Err(Refusal::Header));
    }
}

#[test]
fn too_little_room_is_refusal_3_behind_1_and_2() {
    let mut area = WorkingArea::new(Version::One);
    assert_eq!(resolve_with(&customs(2), &mut area), Err(Refusal::Room));
    assert_eq!(resolve_with(&customs(16_384), &mut area), Err(Refusal::RowCount));
    let mut out = vec![FILLED; Version::Two.out_size(2) - 1];
    assert_eq!(resolve_into_with(&customs(2), &mut out, &mut second()), Err(Refusal::Room));
    assert!(out.iter().all(|byte| *byte == FILLED));
    out.resize(Version::Two.out_size(2) + 5, FILLED);
    assert_eq!(resolve_into_with(&customs(2), &mut out, &mut second()), Ok(2));
    let (front, tail) = out.split_at(Version::Two.out_size(2));
    assert_eq!(front[..48], customs(2));
    assert!(front[48..].iter().all(|byte| *byte == 0));
    assert!(tail.iter().all(|byte| *byte == FILLED));
}

/// A type of this name, and what it refers to by name, at place 9.
fn type_of(name: u8, other: Option<u8>) -> Vec<[u8; 16]> {
    let mut rows = vec![[1, 12, 0, 0, 0, 0, 0, 0, 0, 0, 0, 0, 0, 0, 0, 0], [2, 9, 0, 0, name, 0, 0, 0, 0, 0, 0, 0, 0, 0, 0, 0]];
    rows.extend(other.map(|other| [3, 9, 1, 0, other, 0, 0, 0, 0, 0, 0, 0, 9, 0, 0, 0]));
    rows
}

/// A root of version 2 with these fields, under the rule set of this number.
fn under(rules: u8, fields: &[Vec<[u8; 16]>]) -> Vec<u8> {
    let rows: Vec<[u8; 16]> = [vec![OPEN], fields.concat(), vec![CLOSE]].concat();
    let mut form = [header(rows.len()), rows.concat()].concat();
    form[5] = rules;
    form
}

#[test]
fn under_rule_set_1_a_name_means_what_an_earlier_field_declares() {
    let forward = [type_of(1, Some(2)), type_of(2, None)];
    let backward = [type_of(2, None), type_of(1, Some(2))];
    assert!(resolve_with(&under(0, &forward), &mut second()).is_ok());
    assert_eq!(resolve_with(&under(1, &forward), &mut second()), Err(Refusal::NotEarlier { place: 9 }));
    let out = resolve_with(&under(1, &backward), &mut second()).expect("the type stands before");
    assert_eq!(out[5], 1);
    let plain = resolve_with(&under(0, &backward), &mut second()).expect("and so under rule set 0");
    assert_eq!(out[16..], plain[16..]);
    assert_eq!(resolve_with(&under(2, &backward), &mut second()), Err(Refusal::Header));
}

#[test]
fn converting_there_and_back_gives_the_same_bytes() {
    let driver = example("driver/driver");
    let larger = convert(&driver, Version::Two).expect("every form of version 1 goes");
    assert_eq!(larger[16..], driver[8..]);
    assert_eq!(convert(&larger, Version::One), Ok(driver.clone()));
    assert_eq!(convert(&driver, Version::One), Ok(driver));
    assert_eq!(convert(&larger, Version::Two), Ok(larger));
}

#[test]
fn the_way_back_needs_the_limits_of_version_1() {
    assert_eq!(convert(&customs(1023), Version::One).map(|form| form.len()), Ok(wnt::MAX_FORM_SIZE));
    assert_eq!(convert(&customs(1024), Version::One), Err(Refusal::RowCount));
    assert_eq!(convert(&nested(32), Version::One).map(|form| form.len()), Ok(wnt::form_size(126)));
    assert_eq!(convert(&nested(33), Version::One), Err(Refusal::Deep { row: 96 }));
    let mut newer = customs(2);
    newer[5] = 1;
    assert_eq!(convert(&newer, Version::One), Err(Refusal::Header));
    assert_eq!(convert(&newer, Version::Two), Ok(newer));
}
