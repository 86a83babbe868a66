//! Rows as types, and the builder.

use wnt::{component, rows, Field, Name, Operand, Row, Scope, Space};

#[path = "../examples/driver.rs"]
#[allow(dead_code)]
mod driver;

/// A file of the repository's examples.
fn example(name: &str) -> Vec<u8> {
    let path = format!("{}/../../examples/{name}", env!("CARGO_MANIFEST_DIR"));
    std::fs::read(&path).unwrap_or_else(|why| panic!("{path}: {why}"))
}

#[test]
fn the_builder_makes_the_driver() {
    assert_eq!(driver::driver(), example("driver/driver.wnt"));
}

#[test]
fn every_row_of_a_form_is_read_and_written_back() {
    for name in ["driver/driver.wnt", "driver/driver-resolved.wnt", "by-number/by-number.wnt", "ascribed/ascribed.wnt"]
    {
        let form = example(name);
        let mut again = form[..8].to_vec();
        for row in rows(&form) {
            again.extend(row.expect("each row is one").bytes());
        }
        assert_eq!(again, form, "{name}");
    }
}

#[test]
fn bytes_that_are_no_row_are_none() {
    let sound = Row::Open { scope: Scope::Component, name: None }.bytes();
    assert_eq!(Row::of(&sound), Some(Row::Open { scope: Scope::Component, name: None }));
    for (at, byte) in [(0, 0), (0, 10), (1, 4), (2, 1), (8, 1), (12, 1)] {
        let mut broken = sound;
        broken[at] = byte;
        assert_eq!(Row::of(&broken), None, "byte {at}");
    }
    // A name that is 0, and an e that has more bits than an OUTER's.
    let mut unnamed = Row::Reference { space: Space::Type, operand: Operand::Number(0), paths: 0, place: 7 }.bytes();
    unnamed[2] = 1;
    assert_eq!(Row::of(&unnamed), None);
    let numbers = Operand::Number(1);
    let mut outer = Row::Outer { space: Space::Type, outer: numbers, index: numbers, place: 7 }.bytes();
    outer[2] = 4;
    assert_eq!(Row::of(&outer), None);
}

#[test]
fn names_of_an_input() {
    assert_eq!(Name::new(0), None);
    assert_eq!(Name::new(2_147_483_648), None);
    assert_eq!(Name::new(2_147_483_647).map(Name::number), Some(2_147_483_647));
}

#[test]
fn a_form_that_is_too_long_is_none() {
    let customs = |count: usize| {
        component(None, |root| {
            for _ in 0..count {
                root.field(Field::Custom, 0);
            }
        })
    };
    let longest = customs(1021).expect("it has 1,023 rows");
    assert_eq!(wnt::resolve(&longest), Ok(longest.clone()));
    assert_eq!(customs(1022), None);
}
