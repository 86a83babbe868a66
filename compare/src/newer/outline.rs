//! The scopes of a form, as document 02, R-8, speaks of them: which field declares a name, which field holds a scope, and when a
//! run comes to a row.

use crate::rows::{CLOSE, DECL, FIELD, OPEN, OUTER, REF, Row};
use std::collections::HashMap;

pub struct Scope {
    pub kind: u8,
    pub name: u32,
    /// The scope around it, and the row of that scope's field that holds it.
    pub around: Option<(usize, usize)>,
    /// For each name of a space, the row of the field that declares it first.
    pub declares: HashMap<(u8, u32), usize>,
}

pub struct Outline {
    pub scopes: Vec<Scope>,
    /// For each row its scope and its field; an OPEN and a CLOSE belong to the scope that they open and close.
    pub scope_of: Vec<usize>,
    pub field_of: Vec<usize>,
}

/// When a run comes to something, step by step and field by field; earlier is less.
pub type Time = Vec<[usize; 4]>;

/// The steps of a scope, and the parts of a field in step C.
const STEP_A: usize = 0;
const STEP_B: usize = 1;
const STEP_C: usize = 2;
const INSERTED: usize = 0;
const OPERANDS: usize = 1;
const INNER_SCOPE: usize = 2;

impl Outline {
    pub fn of(rows: &[Row]) -> Outline {
        let mut outline = Outline { scopes: Vec::new(), scope_of: Vec::new(), field_of: Vec::new() };
        let mut open: Vec<(usize, usize)> = Vec::new();
        for (at, row) in rows.iter().enumerate() {
            if row.code == OPEN {
                let around = open.last().copied();
                open.push((outline.scopes.len(), at));
                outline.scopes.push(Scope { kind: row.b, name: row.x, around, declares: HashMap::new() });
            }
            let (scope, field) = open.last_mut().expect("a scope is open");
            if row.code == FIELD {
                *field = at;
            }
            if row.code == DECL && row.x != 0 {
                outline.scopes[*scope].declares.entry((row.b, row.x)).or_insert(*field);
            }
            outline.scope_of.push(*scope);
            outline.field_of.push(*field);
            if row.code == CLOSE {
                open.pop();
            }
        }
        outline
    }

    /// The scopes around a row, its own first, each with the row of the field in which the row lies.
    pub fn outward(&self, row: usize) -> impl Iterator<Item = (usize, usize)> {
        let here = (self.scope_of[row], self.field_of[row]);
        std::iter::successors(Some(here), |(scope, _)| self.scopes[*scope].around)
    }

    /// When the scope of a row comes to a step, a field and a part of it.
    fn time(&self, row: usize, last: [usize; 4]) -> Time {
        let mut time = vec![last];
        time.extend(self.outward(row).skip(1).map(|(_, holder)| [STEP_C, holder, INNER_SCOPE, 0]));
        time.reverse();
        time
    }

    pub fn in_step_a(&self, row: usize) -> Time {
        self.time(row, [STEP_A, row, 0, 0])
    }

    pub fn in_step_b(&self, row: usize) -> Time {
        self.time(row, [STEP_B, row, 0, 0])
    }

    /// When what was inserted for a reference is resolved: with all that was inserted there, before the field's operands.
    pub fn as_inserted(&self, row: usize) -> Time {
        self.time(row, [STEP_C, self.field_of[row], INSERTED, row])
    }

    pub fn as_operand(&self, row: usize) -> Time {
        self.time(row, [STEP_C, self.field_of[row], OPERANDS, row])
    }

    /// When the steps refuse with this number because of a row.
    pub fn refused(&self, rows: &[Row], number: u32, row: usize) -> Time {
        match number {
            6 => self.in_step_a(row),
            7 | 8 => self.in_step_b(row),
            9 if rows[row].code == REF && rows[row].y > 0 => self.as_inserted(row),
            10 | 11 => self.as_operand((row..).find(|at| rows[*at].code == OUTER).expect("the field's OUTER")),
            _ => self.as_operand(row),
        }
    }
}
