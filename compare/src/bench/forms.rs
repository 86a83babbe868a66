//! The eight shapes of the benchmark, each for any number of rows.

use crate::rows::{CLOSE, DECL, FIELD, OPEN, PATH, REF, Row};
use crate::shapes::COMPONENT;

pub type MakeForm = fn(usize) -> Vec<Row>;

pub const FORMS: [(&str, MakeForm); 8] = [
    ("one scope of declarations and references", declarations_and_references),
    ("declarations alone", declarations),
    ("32 nested scopes", nested),
    ("many sibling components", siblings),
    ("paths of four", paths),
    ("outer references, one a field", outer_one_a_field),
    ("many outer references in one field", outer_in_one_field),
    ("outer references 31 scopes out", outer_far),
];

const TYPE: u8 = 9;
const INSTANCE: u8 = 10;
const NESTED_COMPONENT: u8 = 11;

/// Rows that are added one field at a time.
struct Draft {
    rows: Vec<Row>,
    open: usize,
    next_name: u32,
}

impl Draft {
    fn new() -> Draft {
        Draft { rows: vec![Row::new(OPEN, COMPONENT, 0, 0, 0, 0)], open: 1, next_name: 1 }
    }

    /// How many rows there would be with every scope closed.
    fn length(&self) -> usize {
        self.rows.len() + self.open
    }

    fn has_room(&self, rows: usize, more: usize) -> bool {
        self.length() + more <= rows
    }

    fn field(&mut self, code: u8, space: u8) -> u32 {
        let (name, z) = (self.next_name, self.rows.len() as u32);
        self.next_name += 1;
        self.rows.push(Row::new(FIELD, code, 0, 0, 0, z));
        self.rows.push(Row::new(DECL, space, 0, name, 0, z + 1));
        name
    }

    fn reference(&mut self, space: u8, name: u32) {
        let z = self.rows.len() as u32;
        self.rows.push(Row::new(REF, space, 1, name, 0, z));
    }

    /// A type that refers to the type with this name.
    fn type_on(&mut self, name: u32) {
        self.field(12, TYPE);
        self.reference(TYPE, name);
    }

    fn open(&mut self) {
        let name = self.field(6, NESTED_COMPONENT);
        self.rows.push(Row::new(OPEN, COMPONENT, 0, name, 0, 0));
        self.open += 1;
    }

    fn close(&mut self) {
        self.rows.push(Row::new(CLOSE, 0, 0, 0, 0, 0));
        self.open -= 1;
    }

    fn done(mut self) -> Vec<Row> {
        while self.open > 0 {
            self.close();
        }
        self.rows
    }
}

/// A number below `limit` that jumps about as `step` grows.
fn scattered(step: usize, limit: u32) -> u32 {
    (step as u32).wrapping_mul(2_654_435_761) % limit
}

fn declarations_and_references(rows: usize) -> Vec<Row> {
    let mut draft = Draft::new();
    let fields = (rows - draft.length()) / 3;
    for at in 0..fields {
        draft.type_on(1 + scattered(at, fields as u32));
    }
    draft.done()
}

fn declarations(rows: usize) -> Vec<Row> {
    let mut draft = Draft::new();
    while draft.has_room(rows, 2) {
        draft.field(12, TYPE);
    }
    draft.done()
}

/// 32 scopes, or as many as the rows allow, each with types that refer to one another.
fn nested(rows: usize) -> Vec<Row> {
    let mut draft = Draft::new();
    let scopes = 32.min(rows / 8);
    for scope in 0..scopes {
        if scope > 0 {
            draft.open();
        }
        let left = scopes - scope;
        let fields = (rows.saturating_sub(draft.length() + 4 * (left - 1)) / left / 3) as u32;
        let first = draft.next_name;
        for at in 0..fields {
            draft.type_on(first + scattered(at as usize, fields));
        }
    }
    draft.done()
}

fn siblings(rows: usize) -> Vec<Row> {
    let mut draft = Draft::new();
    while draft.has_room(rows, 10) {
        draft.open();
        let first = draft.next_name;
        draft.type_on(first + 1);
        draft.type_on(first);
        draft.close();
    }
    draft.done()
}

fn paths(rows: usize) -> Vec<Row> {
    let mut draft = Draft::new();
    let instance = draft.field(8, INSTANCE);
    while draft.has_room(rows, 7) {
        draft.field(22, TYPE);
        draft.reference(TYPE, instance);
        draft.rows.last_mut().expect("the reference").y = 4;
        for export in 0..4 {
            draft.rows.push(Row::new(PATH, 0, 0, export, 0, 0));
        }
    }
    draft.done()
}

/// A third of the rows declare types outside, the rest refer to them from a component inside.
fn outer_types(draft: &mut Draft, rows: usize) -> u32 {
    let count = (rows / 6) as u32;
    for _ in 0..count {
        draft.field(12, TYPE);
    }
    count
}

/// Types that each refer to one of the first `count`, to the end of the rows.
fn referring_types(mut draft: Draft, rows: usize, count: u32) -> Vec<Row> {
    let mut at = 0;
    while draft.has_room(rows, 3) {
        draft.type_on(1 + scattered(at, count));
        at += 1;
    }
    draft.done()
}

fn outer_one_a_field(rows: usize) -> Vec<Row> {
    let mut draft = Draft::new();
    let count = outer_types(&mut draft, rows);
    draft.open();
    referring_types(draft, rows, count)
}

fn outer_in_one_field(rows: usize) -> Vec<Row> {
    let mut draft = Draft::new();
    let count = outer_types(&mut draft, rows);
    draft.open();
    draft.field(12, TYPE);
    let mut at = 0;
    while draft.has_room(rows, 1) {
        draft.reference(TYPE, 1 + scattered(at, count));
        at += 1;
    }
    draft.done()
}

fn outer_far(rows: usize) -> Vec<Row> {
    let mut draft = Draft::new();
    let scopes = 31.min(rows / 8);
    let count = outer_types(&mut draft, rows.saturating_sub(4 * scopes));
    for _ in 0..scopes {
        draft.open();
    }
    referring_types(draft, rows, count)
}
