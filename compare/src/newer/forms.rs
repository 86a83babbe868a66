//! Random forms of version 2 for rule set 1, rich in names that are late at every place, and in names that are just in time.

use super::crate_form::heap_before_path;
use super::late::{Looked, Slip, Stands, instance_space, is_here_only, late};
use super::outline::Outline;
use crate::chance::Chance;
use crate::generate;
use crate::rows::{DECL, FIELD, NEWER, OUTER, REF, Row};
use crate::shapes::{COMPONENT, Shapes};
use std::collections::HashMap;

/// The names that each scope declares in each space, with the rows of their fields.
type Names = HashMap<(usize, u8), Vec<(u32, usize)>>;

fn names(rows: &[Row], outline: &Outline) -> Names {
    let mut names = Names::new();
    for (at, row) in rows.iter().enumerate().filter(|(_, row)| row.code == DECL && row.x != 0) {
        names.entry((outline.scope_of[at], row.b)).or_default().push((row.x, outline.field_of[at]));
    }
    names
}

/// The rows of a form, well-formed under rule set 1 though it may be too long or too deep.
pub fn form(shapes: &Shapes, chance: &mut Chance) -> Vec<Row> {
    let mut rows = generate::form_of(NEWER, shapes, chance.next());
    let outline = Outline::of(&rows);
    let names = names(&rows, &outline);
    let turned = chance.pick(&[0, 10, 30, 60]);
    for at in 0..rows.len() {
        if chance.percent(turned) {
            turn(&mut rows, at, &outline, &names, chance);
        }
    }
    tame(&mut rows, chance);
    rows
}

/// Puts names that are in time, or numbers, for most of the late ones, so that a run comes further.
pub fn tame(rows: &mut [Row], chance: &mut Chance) {
    let outline = Outline::of(rows);
    let names = names(rows, &outline);
    let left = chance.pick(&[0, 0, 2, 10, 40, 100]);
    for late in late(&outline, rows, Slip::None) {
        if !chance.percent(left) {
            mend(rows, late.row, &outline, &names, chance);
        }
    }
    number_heap_types(rows, &outline);
}

/// Whether a field stands where it is wanted: before, in or behind the one in which a name lies.
fn stands(wanted: Option<Stands>, declared: usize, field: usize) -> bool {
    match wanted {
        None => declared < field,
        Some(Stands::OwnField | Stands::Holder) => declared == field,
        Some(Stands::LaterField | Stands::BehindHolder) => declared > field,
    }
}

/// A name of this space that one of these scopes declares where it is wanted.
fn pick(
    scopes: &[(usize, usize)],
    space: u8,
    wanted: Option<Stands>,
    names: &Names,
    chance: &mut Chance,
) -> Option<u32> {
    let all = scopes.iter().flat_map(|(scope, field)| {
        let declared = names.get(&(*scope, space)).map_or(&[][..], Vec::as_slice);
        declared.iter().filter(move |(_, by)| stands(wanted, *by, *field)).map(|(name, _)| *name)
    });
    let all: Vec<u32> = all.collect();
    (!all.is_empty()).then(|| chance.pick(&all))
}

/// Gives an operand another name: one that is late, in some place, or one that is in time.
fn turn(rows: &mut [Row], at: usize, outline: &Outline, names: &Names, chance: &mut Chance) {
    let row = rows[at];
    if !matches!(row.code, REF | OUTER) || is_here_only(rows[outline.field_of[at]].b) {
        return;
    }
    let around: Vec<(usize, usize)> = outline.outward(at).collect();
    let here = [Some(Stands::OwnField), Some(Stands::LaterField), None];
    let out = [Some(Stands::Holder), Some(Stands::BehindHolder), None];
    let further = around.len() > 1 && chance.percent(50);
    let wanted = chance.pick(if further { &out } else { &here });
    let scopes = if further { &around[1..] } else { &around[..1] };
    match row.code {
        OUTER => {
            let count = if further { 1 + chance.below(scopes.len()) } else { 0 };
            if let Some(name) = pick(&around[count..=count], row.b, wanted, names, chance) {
                let scope = outline.scopes[around[count].0].name;
                let named = scope != 0 && chance.percent(50);
                (rows[at].e, rows[at].x) = if named { (3, scope) } else { (2, count as u32) };
                rows[at].y = name;
            }
        }
        _ => {
            // A path cannot begin with an instance further out: refusal 9.
            let stays = row.y > 0 && chance.percent(80);
            let space = if row.y == 0 { row.b } else { instance_space(row.b) };
            let scopes = if stays { &around[..1] } else { scopes };
            if let Some(name) = pick(scopes, space, wanted, names, chance) {
                (rows[at].e, rows[at].x) = (1, name);
            }
        }
    }
}

/// Makes a late name one that is declared before its field in its scope, or a number.
fn mend(rows: &mut [Row], at: usize, outline: &Outline, names: &Names, chance: &mut Chance) {
    let row = rows[at];
    let small = chance.below(8) as u32;
    if row.code == OUTER {
        (rows[at].e, rows[at].y) = (row.e & 1, small);
        return;
    }
    let space = if row.y == 0 { row.b } else { instance_space(row.b) };
    let here = [(outline.scope_of[at], outline.field_of[at])];
    match pick(&here, space, None, names, chance) {
        Some(name) => (rows[at].e, rows[at].x) = (1, name),
        None => (rows[at].e, rows[at].x) = (0, small),
    }
}

/// Heap types of resources before a path become numbers in the scopes of types: the crate cannot be asked for a name there.
fn number_heap_types(rows: &mut [Row], outline: &Outline) {
    for at in 0..rows.len() {
        let in_type = outline.scopes[outline.scope_of[at]].kind != COMPONENT;
        if rows[at].code == FIELD && in_type && heap_before_path(rows, at) {
            (rows[at + 2].e, rows[at + 2].x) = (0, 3);
        }
    }
}

/// The words for a late name in a summary.
pub fn said(looked: Looked, stands: Stands) -> &'static str {
    match (looked, stands) {
        (Looked::Walked, Stands::OwnField) => "name in its own field",
        (Looked::Walked, Stands::LaterField) => "name in a later field",
        (Looked::Walked, Stands::Holder) => "name in the field that holds its scope",
        (Looked::Walked, Stands::BehindHolder) => "name further out behind that",
        (Looked::Instance, Stands::OwnField) => "instance in its own field",
        (Looked::Instance, _) => "instance in a later field",
        (Looked::Index, Stands::OwnField) => "index in its own field",
        (Looked::Index, Stands::LaterField) => "index in a later field",
        (Looked::Index, Stands::Holder) => "index in the field that holds its scope",
        (Looked::Index, Stands::BehindHolder) => "index further out behind that",
    }
}
