//! A form of rule set 1 as the crate, which has rule set 0 alone, can be asked for it, and its answer carried back.
//!
//! The place of each row is its number from 1, so that the place of a refusal names a row. A heap type is a core type under rule set
//! 1, and the crate looks it up among the types; so it stands where the crate has a core type: in builtins 14 and 15 as the operand of
//! builtin 4, and in field 16 in a helper straight before it. That is a field 18 with the operands of field 16 among its options, which
//! declares a func without a name, or in the scopes of types, where there is no field 18, a field 23 with the heap type alone, which
//! declares a core module without a name. Helpers are taken out of the answer again, and the numbers of funcs and modules behind them
//! go down by one. What follows the heap type stays in field 16 there, so that a path among it is resolved behind the heap type and not
//! before: forms that have both are not asked for (`heap_before_path`).

use super::outline::Outline;
use crate::rows::{CLOSE, DECL, FIELD, FIRST_INSERTED, OPEN, OUTER, PATH, REF, Row};
use crate::shapes::{BUILTIN_FIELD, COMPONENT};

const RESOURCE: u8 = 16;
const LIFT: u8 = 18;
const EXPORT_DECLARATION: u8 = 23;
const CORE_TYPE: u8 = 4;
const MODULE: u8 = 7;
const FUNC: u8 = 8;
const TYPE: u8 = 9;
/// A builtin whose one operand is a core type.
const OF_CORE_TYPE: u16 = 4;

/// Whether a builtin has a heap type.
fn has_heap_type(builtin: u16) -> bool {
    matches!(builtin, 14 | 15)
}

/// The operands of a field: its rows behind FIELD and one DECL.
fn operands(rows: &[Row], field: usize) -> &[Row] {
    let behind = &rows[field + 2..];
    let end = behind.iter().position(|row| !matches!(row.code, REF | PATH)).unwrap_or(behind.len());
    &behind[..end]
}

/// Whether the first operand of a field is a heap type, and whether it is a name.
pub fn heap_type(rows: &[Row], field: usize) -> Option<bool> {
    let head = rows[field];
    let may = head.b == RESOURCE || (head.b == BUILTIN_FIELD && has_heap_type(head.e));
    let first = may.then(|| operands(rows, field).first().copied()).flatten()?;
    (first.code == REF && first.b == CORE_TYPE).then_some(first.e == 1)
}

/// Whether the operands of a field are a heap type that is a name, and a path.
pub fn heap_before_path(rows: &[Row], field: usize) -> bool {
    heap_type(rows, field) == Some(true) && operands(rows, field).iter().any(|row| row.code == PATH)
}

/// The rows that the crate is asked for.
pub fn asked(rows: &[Row], outline: &Outline) -> Vec<Row> {
    let labelled: Vec<Row> = rows.iter().zip(1..).map(|(row, label)| labelled(*row, label)).collect();
    let mut all = Vec::new();
    let mut at = 0;
    while at < rows.len() {
        let row = labelled[at];
        let heap = (row.code == FIELD).then(|| heap_type(rows, at)).flatten();
        match (heap, row.b) {
            (Some(_), BUILTIN_FIELD) => all.push(Row { e: OF_CORE_TYPE, ..row }),
            (Some(_), RESOURCE) => {
                let operands = operands(&labelled, at);
                if outline.scopes[outline.scope_of[at]].kind == COMPONENT {
                    all.extend([Row::new(FIELD, LIFT, 0, 0, 0, row.z), Row::new(DECL, FUNC, 0, 0, 0, 0)]);
                    all.extend([Row::new(REF, TYPE, 0, 0, 0, 0), Row::new(REF, 0, 0, 0, 0, 0)]);
                    all.extend_from_slice(operands);
                    all.extend_from_slice(&labelled[at..at + 2]);
                } else {
                    all.extend([
                        Row::new(FIELD, EXPORT_DECLARATION, 0, 0, 0, row.z),
                        Row::new(DECL, MODULE, 0, 0, 0, 0),
                    ]);
                    all.push(operands[0]);
                    all.extend_from_slice(&labelled[at..at + 2]);
                    all.extend_from_slice(&operands[1..]);
                }
                at += 2 + operands.len();
                continue;
            }
            _ => all.push(row),
        }
        at += 1;
    }
    all
}

/// The row with this place, if rows of its code have one.
fn labelled(row: Row, label: u32) -> Row {
    let has_place = !matches!(row.code, PATH | OPEN | CLOSE | crate::rows::EXPORT);
    if has_place { Row { z: label, ..row } } else { row }
}

/// For each scope of the answer, in the order of their OPENs, and each of its declarations of a space, whether it is a helper's.
type Helpers = Vec<Vec<bool>>;

/// The rows of the form's own answer, from those that the crate gave.
pub fn back(rows: &[Row], out: &[Row]) -> Vec<Row> {
    let own = |row: Row| (row.z > 0).then(|| rows[row.z as usize - 1]);
    let is_helper = |row: Row| {
        row.code == FIELD
            && matches!(row.b, LIFT | EXPORT_DECLARATION)
            && own(row).is_some_and(|own| own.code == FIELD && own.b == RESOURCE)
    };
    let (funcs, modules) = (helpers(out, FUNC, is_helper), helpers(out, MODULE, is_helper));
    let mut all: Vec<Row> = Vec::new();
    let (mut scopes, mut seen): (Vec<usize>, usize) = (Vec::new(), 0);
    let mut moved: Vec<Row> = Vec::new();
    let mut at = 0;
    while at < out.len() {
        let row = out[at];
        match row.code {
            OPEN => {
                scopes.push(seen);
                seen += 1;
            }
            CLOSE => drop(scopes.pop()),
            _ => {}
        }
        // What stands for a row: in its own scope, and for an OUTER in the one that it leads to.
        let restored = |row: Row| {
            let out_by = if row.code == OUTER { row.x as usize } else { 0 };
            let scope = scopes.len().checked_sub(1 + out_by).map(|at| scopes[at]);
            restored(row, own(row), of_scope(&funcs, scope), of_scope(&modules, scope))
        };
        if is_helper(row) {
            let operands = operands(out, at);
            let first = if row.b == LIFT { 2 } else { 0 };
            moved = operands[first..].iter().map(|row| restored(*row)).collect();
            at += 2 + operands.len();
            continue;
        }
        all.push(restored(row));
        if row.code == DECL && row.x < FIRST_INSERTED {
            all.append(&mut moved);
        }
        at += 1;
    }
    all
}

/// Those of a scope, if there is one.
fn of_scope(helpers: &Helpers, scope: Option<usize>) -> &[bool] {
    scope.map_or(&[], |scope| &helpers[scope])
}

/// Which declarations of a space are helpers'.
fn helpers(out: &[Row], space: u8, is_helper: impl Fn(Row) -> bool) -> Helpers {
    let (mut all, mut open): (Helpers, Vec<usize>) = (Vec::new(), Vec::new());
    for (at, row) in out.iter().enumerate() {
        match row.code {
            OPEN => {
                open.push(all.len());
                all.push(Vec::new());
            }
            CLOSE => drop(open.pop()),
            DECL if row.b == space => all[*open.last().expect("a scope is open")].push(is_helper(out[at - 1])),
            _ => {}
        }
    }
    all
}

/// A row as the form has it: its place, what was changed in it, and of a func or a module that a name meant the number without
/// helpers.
fn restored(row: Row, own: Option<Row>, funcs: &[bool], modules: &[bool]) -> Row {
    let Some(own) = own else { return row };
    let mut row = Row { z: own.z, ..row };
    let without = |number: u32, all: &[bool]| number - all[..number as usize].iter().filter(|one| **one).count() as u32;
    match (row.code, own.code) {
        (FIELD, FIELD) => (row.b, row.e) = (own.b, own.e),
        (REF, REF) if own.e == 0 && own.y == 0 => row.b = own.b,
        (REF, REF) if row.b == FUNC => row.x = without(row.x, funcs),
        (OUTER, OUTER) if row.b == MODULE && own.e & 2 != 0 => row.y = without(row.y, modules),
        // An alias that was inserted for a walked name.
        (OUTER, REF) if row.b == MODULE => row.y = without(row.y, modules),
        _ => {}
    }
    row
}
