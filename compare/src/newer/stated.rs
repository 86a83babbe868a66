//! Cases of rule set 1 worked out by hand from documents 01 and 02: rows of a root between OPEN and CLOSE, and what is answered.

use crate::rows::{Answer, CLOSE, OPEN, Row};

type Parts = (u8, u8, u16, u32, u32, u32);

pub struct Stated {
    pub name: &'static str,
    pub rows: Vec<Row>,
    pub answer: Answer,
}

/// The first name that an inserted field has.
const NEW: u32 = 1 << 31;

fn root(parts: &[Parts]) -> Vec<Row> {
    let mut rows = vec![Row::new(OPEN, 0, 0, 0, 0, 0)];
    rows.extend(parts.iter().map(|(code, b, e, x, y, z)| Row::new(*code, *b, *e, *x, *y, *z)));
    rows.push(Row::new(CLOSE, 0, 0, 0, 0, 0));
    rows
}

fn refused(name: &'static str, number: u32, place: u32, parts: &[Parts]) -> Stated {
    Stated { name, rows: root(parts), answer: Answer::refused(number, place) }
}

fn accepted(name: &'static str, parts: &[Parts], out: &[Parts]) -> Stated {
    Stated { name, rows: root(parts), answer: Answer::Accepted(root(out)) }
}

/// A type of this name that refers to nothing, and one that refers to another by name.
fn plain(name: u32) -> [Parts; 2] {
    [(1, 12, 0, 0, 0, 0), (2, 9, 0, name, 0, 0)]
}

fn to(name: u32, other: u32, z: u32) -> [Parts; 3] {
    [(1, 12, 0, 0, 0, 0), (2, 9, 0, name, 0, 0), (3, 9, 1, other, 0, z)]
}

/// A component of this name around these rows.
fn component(name: u32, inside: &[Parts]) -> Vec<Parts> {
    let mut rows = vec![(1, 6, 0, 0, 0, 0), (2, 11, 0, name, 0, 0), (7, 0, 0, name, 0, 0)];
    rows.extend_from_slice(inside);
    rows.push((8, 0, 0, 0, 0, 0));
    rows
}

/// A func exported under a name: of this reference.
fn func(name: u32, reference: Parts) -> [Parts; 3] {
    [(1, 22, 0, 0, 0, 0), (2, 8, 0, name, 0, 0), reference]
}

fn instance(name: u32) -> [Parts; 2] {
    [(1, 8, 0, 0, 0, 0), (2, 10, 0, name, 0, 0)]
}

fn outer(reference: Parts) -> [Parts; 3] {
    [(1, 11, 0, 0, 0, 50), (2, 9, 0, 1, 0, 0), reference]
}

fn all(parts: &[&[Parts]]) -> Vec<Parts> {
    parts.concat()
}

fn walked() -> Vec<Stated> {
    let func_inside = component(2, &func(0, (3, 8, 1, 5, 0, 9)));
    let func_5 = func(5, (3, 8, 0, 0, 0, 0));
    let alias = [(1, 11, 0, 0, 0, 70), (2, 9, 0, NEW, 0, 70), (5, 9, 0, 1, 0, 70)];
    let number = |x| [(1, 12, 0, 0, 0, 0), (2, 9, 0, 3, 0, 0), (3, 9, 0, x, 0, 70)];
    vec![
        refused("a later field declares the name", 13, 9, &all(&[&to(1, 2, 9), &plain(2)])),
        refused("its own field declares the name", 13, 9, &to(1, 1, 9)),
        refused(
            "the field that holds the scope declares the name",
            13,
            9,
            &component(2, &[(1, 7, 0, 0, 0, 0), (2, 10, 0, 0, 0, 0), (3, 11, 1, 2, 0, 9)]),
        ),
        accepted("declared earlier in this scope", &all(&[&plain(1), &to(3, 1, 70)]), &all(&[&plain(1), &number(0)])),
        accepted(
            "declared earlier further out",
            &all(&[&plain(1), &component(2, &to(3, 1, 70))]),
            &all(&[&plain(1), &component(2, &all(&[&alias, &number(0)]))]),
        ),
        refused("a func behind the holder is 13 ahead of 8", 13, 9, &all(&[&func_inside, &func_5])),
        refused("a func before the holder is 8", 8, 9, &all(&[&func_5, &func_inside])),
        refused(
            "a late name ends the search",
            13,
            9,
            &all(&[&plain(1), &component(2, &all(&[&to(3, 1, 9), &plain(1)]))]),
        ),
        accepted(
            "a here-only operand looks forward",
            &[(1, 4, 0, 0, 0, 0), (2, 4, 0, 1, 0, 0), (3, 4, 1, 2, 0, 9), (1, 4, 0, 0, 0, 0), (2, 4, 0, 2, 0, 0)],
            &[(1, 4, 0, 0, 0, 0), (2, 4, 0, 1, 0, 0), (3, 4, 0, 1, 0, 9), (1, 4, 0, 0, 0, 0), (2, 4, 0, 2, 0, 0)],
        ),
        accepted(
            "a written number looks forward",
            &all(&[&[(1, 12, 0, 0, 0, 0), (2, 9, 0, 1, 0, 0), (3, 9, 0, 1, 0, 9)], &plain(2)]),
            &all(&[&[(1, 12, 0, 0, 0, 0), (2, 9, 0, 1, 0, 0), (3, 9, 0, 1, 0, 9)], &plain(2)]),
        ),
    ]
}

fn in_step_c() -> Vec<Stated> {
    let path = |z| [(1, 22, 0, 0, 0, 0), (2, 8, 0, 0, 0, 0), (3, 8, 1, 1, 1, z), (4, 0, 0, 5, 0, 0)];
    let twice = [(1, 22, 0, 0, 0, 0), (2, 8, 0, 0, 0, 0), (3, 8, 1, 1, 2, 70), (4, 0, 0, 5, 0, 0), (4, 0, 0, 6, 0, 0)];
    let aliases = [
        (1, 9, 0, 0, 0, 70),
        (2, 10, 0, NEW, 0, 70),
        (3, 10, 0, 0, 0, 70),
        (9, 0, 0, 5, 0, 0),
        (1, 9, 0, 0, 0, 70),
        (2, 8, 0, NEW + 1, 0, 70),
        (3, 10, 0, 1, 0, 70),
        (9, 0, 0, 6, 0, 0),
    ];
    let instantiated =
        [(1, 7, 0, 0, 0, 0), (2, 10, 0, 0, 0, 0), (3, 11, 1, 5, 0, 1), (3, 8, 1, 6, 1, 2), (4, 0, 0, 9, 0, 0)];
    vec![
        refused("the instance of a path is late", 13, 9, &all(&[&path(9), &instance(1)])),
        refused("the instance of a path is absent", 9, 9, &path(9)),
        accepted(
            "the instance of a path is declared earlier",
            &all(&[&instance(1), &twice]),
            &all(&[&instance(1), &aliases, &func(0, (3, 8, 0, 0, 0, 70))]),
        ),
        refused("13 of step B comes before 13 of step C", 13, 2, &all(&[&path(1), &instance(1), &to(3, 3, 2)])),
        refused(
            "a late instance comes before an unknown name of its field",
            13,
            2,
            &all(&[&instantiated, &instance(6)]),
        ),
        refused("a named index in this scope is late", 13, 9, &all(&[&outer((5, 9, 2, 0, 2, 9)), &plain(2)])),
        accepted(
            "a named index in this scope is declared earlier",
            &all(&[&plain(2), &outer((5, 9, 2, 0, 2, 9))]),
            &all(&[&plain(2), &outer((5, 9, 0, 0, 0, 9))]),
        ),
        refused(
            "a named index further out is late",
            13,
            9,
            &all(&[&component(3, &outer((5, 9, 2, 1, 2, 9))), &plain(2)]),
        ),
        accepted(
            "a named index further out is declared earlier",
            &all(&[&plain(2), &component(3, &outer((5, 9, 2, 1, 2, 9)))]),
            &all(&[&plain(2), &component(3, &outer((5, 9, 0, 1, 0, 9)))]),
        ),
    ]
}

/// Heap types are core types, walked, in field 16 and in builtins 14 and 15; the funcs behind a resource keep their numbers.
fn heap_types() -> Vec<Stated> {
    let core_type = [(1, 4, 0, 0, 0, 0), (2, 4, 0, 1, 0, 0)];
    let resource = |reference| [(1, 16, 0, 0, 0, 7), (2, 9, 0, 0, 0, 0), reference];
    let slot = |reference| [(1, 19, 14, 0, 0, 7), (2, 0, 0, 0, 0, 0), reference];
    let alias = [(1, 11, 0, 0, 0, 9), (2, 4, 0, NEW, 0, 9), (5, 4, 0, 1, 0, 9)];
    vec![
        accepted(
            "a resource of a core type",
            &all(&[&core_type, &resource((3, 4, 1, 1, 0, 9))]),
            &all(&[&core_type, &resource((3, 4, 0, 0, 0, 9))]),
        ),
        accepted(
            "a context slot of a core type further out",
            &all(&[&core_type, &component(3, &slot((3, 4, 1, 1, 0, 9)))]),
            &all(&[&core_type, &component(3, &all(&[&alias, &slot((3, 4, 0, 0, 0, 9))]))]),
        ),
        accepted(
            "a resource before a func that is named",
            &all(&[
                &core_type,
                &resource((3, 4, 1, 1, 0, 9)),
                &func(5, (3, 8, 0, 0, 0, 0)),
                &func(0, (3, 8, 1, 5, 0, 8)),
            ]),
            &all(&[
                &core_type,
                &resource((3, 4, 0, 0, 0, 9)),
                &func(5, (3, 8, 0, 0, 0, 0)),
                &func(0, (3, 8, 0, 0, 0, 8)),
            ]),
        ),
        refused("a resource of a later core type", 13, 9, &all(&[&resource((3, 4, 1, 1, 0, 9)), &core_type])),
        refused("a heap type is no type", 4, 3, &[(1, 16, 0, 0, 0, 0), (2, 9, 0, 1, 0, 0), (3, 9, 0, 0, 0, 0)]),
    ]
}

pub fn cases() -> Vec<Stated> {
    [walked(), in_step_c(), heap_types()].into_iter().flatten().collect()
}
