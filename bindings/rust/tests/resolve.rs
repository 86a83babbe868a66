//! What the library answers, and what its output then holds, as seen through the wrapper.

use std::fs;
use std::thread;
use wnt::{form_size, out_size, resolve, resolve_into, Refusal, Space};

/// What the buffers are filled with, to see which bytes were changed.
const FILLED: u8 = 0xa5;

/// How much longer than needed the buffers are.
const TAIL: usize = 50;

/// A row's parts: code, b, e, x, y, z.
type Row = [u32; 6];

const OPEN: Row = [7, 0, 0, 0, 0, 0];
const CLOSE: Row = [8, 0, 0, 0, 0, 0];
const CUSTOM: Row = [1, 25, 0, 0, 0, 0];

/// P1 of docs/RULES.md: a type of the root, named in a component inside it.
const P1: [Row; 11] = [
    OPEN,
    [1, 12, 0, 0, 0, 0],
    [2, 9, 0, 1, 0, 0],
    [1, 6, 0, 0, 0, 0],
    [2, 11, 0, 2, 0, 0],
    [7, 0, 0, 2, 0, 0],
    [1, 12, 0, 0, 0, 0],
    [2, 9, 0, 3, 0, 0],
    [3, 9, 1, 1, 0, 70],
    CLOSE,
    CLOSE,
];

const P1_RESOLVED: [Row; 14] = [
    OPEN,
    [1, 12, 0, 0, 0, 0],
    [2, 9, 0, 1, 0, 0],
    [1, 6, 0, 0, 0, 0],
    [2, 11, 0, 2, 0, 0],
    [7, 0, 0, 2, 0, 0],
    [1, 11, 0, 0, 0, 70],
    [2, 9, 0, 2147483648, 0, 70],
    [5, 9, 0, 1, 0, 70],
    [1, 12, 0, 0, 0, 0],
    [2, 9, 0, 3, 0, 0],
    [3, 9, 0, 0, 0, 70],
    CLOSE,
    CLOSE,
];

/// The forms of examples/refused, each with its refusal.
const REFUSED: [(&str, Refusal); 13] = [
    ("1", Refusal::Header),
    ("2", Refusal::RowCount),
    ("4", Refusal::Broken { row: 2 }),
    ("4-early", Refusal::Broken { row: 3 }),
    ("5", Refusal::Deep { row: 96 }),
    ("6", Refusal::DuplicateName { place: 20, space: Some(Space::Type), first: Some(10) }),
    ("7", Refusal::NotExported { place: 21 }),
    ("8", Refusal::NotOuter { place: 31, space: Some(Space::Func) }),
    ("9", Refusal::UnknownName { place: 70, space: Some(Space::Type) }),
    ("9-here", Refusal::UnknownName { place: 41, space: Some(Space::Instance) }),
    ("10", Refusal::UnknownScope { place: 20 }),
    ("11", Refusal::CountTooLarge { place: 20 }),
    ("12", Refusal::DuplicateCase { place: 12 }),
];

fn form(rows: &[Row]) -> Vec<u8> {
    let mut bytes = b"WNT\x01\x00\x00".to_vec();
    bytes.extend((rows.len() as u16).to_le_bytes());
    for [code, b, e, x, y, z] in rows {
        bytes.extend([*code as u8, *b as u8]);
        bytes.extend((*e as u16).to_le_bytes());
        bytes.extend([x, y, z].map(|part| part.to_le_bytes()).concat());
    }
    bytes
}

/// A form of `rows` rows: a root and, inside it, custom sections alone.
fn customs(rows: usize) -> Vec<u8> {
    let mut all = vec![CUSTOM; rows];
    all[0] = OPEN;
    all[rows - 1] = CLOSE;
    form(&all)
}

fn example(name: &str) -> Vec<u8> {
    let file = format!("{}/../../examples/{name}.wnt", env!("CARGO_MANIFEST_DIR"));
    fs::read(&file).unwrap_or_else(|problem| panic!("{file}: {problem}"))
}

fn refused(name: &str) -> Vec<u8> {
    example(&format!("refused/{name}"))
}

/// The room that a form needs, by its length.
fn needed(form: &[u8]) -> usize {
    out_size(form.len().saturating_sub(8) / 16)
}

fn all_are(bytes: &[u8], value: u8) -> bool {
    bytes.iter().all(|byte| *byte == value)
}

#[test]
fn p1_is_resolved_whole() {
    assert_eq!(resolve(&form(&P1)), Ok(form(&P1_RESOLVED)));
}

#[test]
fn accepted_has_zeros_behind_it_and_keeps_the_tail() {
    let input = form(&P1);
    let mut out = vec![FILLED; needed(&input) + TAIL];
    assert_eq!(resolve_into(&input, &mut out), Ok(14));
    let (front, tail) = out.split_at(needed(&input));
    assert_eq!(front[..form_size(14)], form(&P1_RESOLVED));
    assert!(all_are(&front[form_size(14)..], 0));
    assert!(all_are(tail, FILLED));
}

#[test]
fn a_form_without_names_resolves_to_itself() {
    let input = form(&[OPEN, CLOSE]);
    assert_eq!(resolve(&input), Ok(input));
}

#[test]
fn an_output_with_insertions_is_no_input() {
    assert_eq!(resolve(&form(&P1_RESOLVED)), Err(Refusal::Broken { row: 7 }));
}

#[test]
fn the_driver_is_resolved() {
    let resolved = resolve(&example("driver/driver")).expect("the driver is accepted");
    assert_eq!(resolved.len(), form_size(73));
    assert_eq!(resolved[..8], *b"WNT\x01\x00\x00\x49\x00");
}

#[test]
fn each_refusal_is_answered() {
    for (name, refusal) in REFUSED {
        assert_eq!(resolve(&refused(name)), Err(refusal), "{name}");
    }
}

#[test]
fn refusals_1_to_5_leave_the_output_and_6_to_12_zero_it() {
    for (name, refusal) in REFUSED {
        let input = refused(name);
        let mut out = vec![FILLED; needed(&input) + TAIL];
        assert_eq!(resolve_into(&input, &mut out), Err(refusal), "{name}");
        let (front, tail) = out.split_at(needed(&input));
        let expected = if refusal.number() <= 5 { FILLED } else { 0 };
        assert!(all_are(front, expected), "{name}");
        assert!(all_are(tail, FILLED), "{name}");
    }
}

#[test]
fn one_byte_too_few_is_refusal_3() {
    let input = form(&P1);
    let mut out = vec![FILLED; needed(&input) - 1];
    assert_eq!(resolve_into(&input, &mut out), Err(Refusal::Room));
    assert!(all_are(&out, FILLED));
    out.push(FILLED);
    assert_eq!(resolve_into(&input, &mut out), Ok(14));
}

#[test]
fn the_first_three_come_in_their_order() {
    assert_eq!(resolve_into(&[], &mut []), Err(Refusal::Header));
    assert_eq!(resolve_into(&refused("1"), &mut []), Err(Refusal::Header));
    assert_eq!(resolve_into(&refused("2"), &mut []), Err(Refusal::RowCount));
    assert_eq!(resolve_into(&refused("4"), &mut []), Err(Refusal::Room));
}

#[test]
fn the_longest_form_has_1023_rows() {
    let longest = customs(wnt::MAX_ROWS);
    assert_eq!(longest.len(), wnt::MAX_FORM_SIZE);
    assert_eq!(needed(&longest), wnt::MAX_OUT_SIZE);
    assert_eq!(resolve(&longest), Ok(longest));
    assert_eq!(resolve(&customs(wnt::MAX_ROWS + 1)), Err(Refusal::RowCount));
}

#[test]
fn numbers_and_places_are_those_of_the_rules() {
    for (name, refusal) in REFUSED {
        let number = name.split('-').next().expect("a name").parse();
        assert_eq!(Ok(refusal.number()), number);
    }
    assert_eq!((Refusal::Room.number(), Refusal::Room.place()), (3, 0));
    assert_eq!(Refusal::Deep { row: 96 }.place(), 96);
    assert_eq!(Refusal::UnknownName { place: 70, space: None }.place(), 70);
}

#[test]
fn refusals_are_put_into_words() {
    let words = |refusal: Refusal| refusal.to_string();
    assert_eq!(words(Refusal::Room), "refused 3: the output buffer is shorter than 8 + 64 x rows");
    assert_eq!(words(Refusal::Deep { row: 96 }), "refused 5 at row 96: a scope is opened while 32 are open");
    assert_eq!(
        words(Refusal::UnknownName { place: 70, space: Some(Space::Type) }),
        "refused 9 at place 70: no scope declares that name among the types, where it is looked up"
    );
    assert_eq!(
        words(Refusal::DuplicateName { place: 20, space: Some(Space::CoreMemory), first: Some(12) }),
        "refused 6 at place 20: this scope declares that name twice among the core memories, first declared at place 12"
    );
    assert_eq!(
        words(Refusal::NotOuter { place: 31, space: Some(Space::Func) }),
        "refused 8 at place 31: that name is declared further out among the funcs, from where it cannot be had"
    );
}

#[test]
fn a_refusal_is_an_error() {
    let run = || -> Result<Vec<u8>, Box<dyn std::error::Error>> { Ok(resolve(&refused("9"))?) };
    assert!(run().unwrap_err().to_string().starts_with("refused 9 at place 70: "));
}

#[test]
fn several_threads_may_resolve_at_once() {
    let input = form(&P1);
    thread::scope(|scope| {
        for _ in 0..4 {
            scope.spawn(|| (0..100).for_each(|_| assert_eq!(resolve(&input), Ok(form(&P1_RESOLVED)))));
        }
    });
}
