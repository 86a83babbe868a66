//! Which names of a form are late under rule set 1, read off its rows by the text of document 02, R-8.

use super::outline::{Outline, Time};
use crate::rows::{OUTER, REF, Row};

/// What is looked up: a walked name, the instance of a path, a named index of OUTER.
#[derive(Clone, Copy, Debug, PartialEq, Eq)]
pub enum Looked {
    Walked,
    Instance,
    Index,
}

/// Where the declaration stands: in the name's own field, in a later one of its scope; further out in the field that holds the
/// name's scope, behind that.
#[derive(Clone, Copy, Debug, PartialEq, Eq)]
pub enum Stands {
    OwnField,
    LaterField,
    Holder,
    BehindHolder,
}

pub struct Late {
    pub row: usize,
    pub time: Time,
    pub looked: Looked,
    pub stands: Stands,
}

/// A deliberate error in the reading, which a run must be able to tell from it.
#[derive(Clone, Copy, Debug, PartialEq, Eq)]
pub enum Slip {
    None,
    HolderIsEarlier,
    OwnFieldIsEarlier,
    BehindEight,
    SearchGoesOn,
    HereOnlyTested,
    PathWalksOutward,
    InstanceInStepB,
    InstanceFree,
    IndexFree,
    IndexWalksOutward,
    OutermostScope,
}

pub const SLIPS: [Slip; 11] = [
    Slip::HolderIsEarlier,
    Slip::OwnFieldIsEarlier,
    Slip::BehindEight,
    Slip::SearchGoesOn,
    Slip::HereOnlyTested,
    Slip::PathWalksOutward,
    Slip::InstanceInStepB,
    Slip::InstanceFree,
    Slip::IndexFree,
    Slip::IndexWalksOutward,
    Slip::OutermostScope,
];

/// Whether the operands of a field are looked up in their own scope alone.
pub fn is_here_only(field: u8) -> bool {
    matches!(field, 4 | 5 | 24)
}

/// The space in which the instance of a path is looked up.
pub fn instance_space(space: u8) -> u8 {
    if space <= 6 { 6 } else { 10 }
}

/// The scope that an OUTER leads to, with the field there in which the OUTER lies, and those further out.
fn led_to(outline: &Outline, at: usize, row: Row, slip: Slip) -> Vec<(usize, usize)> {
    let around: Vec<(usize, usize)> = outline.outward(at).collect();
    let has_name = |(scope, _): &(usize, usize)| outline.scopes[*scope].name == row.x;
    let count = match (row.e & 1 != 0, slip) {
        (false, _) => Some(row.x as usize),
        (true, Slip::OutermostScope) => around.iter().rposition(has_name),
        (true, _) => around.iter().position(has_name),
    };
    count.and_then(|count| around.get(count..)).unwrap_or(&[]).to_vec()
}

/// What of a row is held to earlier declarations: the name with its space, and the scopes in which it is looked up.
fn held(outline: &Outline, rows: &[Row], at: usize, slip: Slip) -> Option<(Looked, u8, u32, Vec<(usize, usize)>)> {
    let row = rows[at];
    let here_only = is_here_only(rows[outline.field_of[at]].b) && slip != Slip::HereOnlyTested;
    let nearest = |mut scopes: Vec<(usize, usize)>, walks: bool| {
        scopes.truncate(if walks { usize::MAX } else { 1 });
        scopes
    };
    let around = || outline.outward(at).collect::<Vec<_>>();
    match row.code {
        REF if row.e == 1 && row.y == 0 && !here_only => Some((Looked::Walked, row.b, row.x, around())),
        // A path to a core type or a core instance is refusal 7 already.
        REF if row.e == 1 && row.y > 0 && !matches!(row.b, 4 | 6) => {
            let scopes = nearest(around(), slip == Slip::PathWalksOutward);
            Some((Looked::Instance, instance_space(row.b), row.x, scopes))
        }
        OUTER if row.e & 2 != 0 => {
            let scopes = nearest(led_to(outline, at, row, slip), slip == Slip::IndexWalksOutward);
            Some((Looked::Index, row.b, row.y, scopes))
        }
        _ => None,
    }
}

/// Where the first declaration that is found stands, if it is not in an earlier field.
fn later(outline: &Outline, space: u8, name: u32, scopes: &[(usize, usize)], own: usize, slip: Slip) -> Option<Stands> {
    let mut found = None;
    for (scope, field) in scopes {
        let Some(declared) = outline.scopes[*scope].declares.get(&(space, name)) else { continue };
        let stands = match (*scope == own, declared.cmp(field)) {
            (_, std::cmp::Ordering::Less) => return None,
            (true, std::cmp::Ordering::Equal) => Stands::OwnField,
            (true, std::cmp::Ordering::Greater) => Stands::LaterField,
            (false, std::cmp::Ordering::Equal) => Stands::Holder,
            (false, std::cmp::Ordering::Greater) => Stands::BehindHolder,
        };
        match (slip, stands) {
            (Slip::HolderIsEarlier, Stands::Holder) | (Slip::OwnFieldIsEarlier, Stands::OwnField) => return None,
            (Slip::SearchGoesOn, _) => found = found.or(Some(stands)),
            _ => return Some(stands),
        }
    }
    found
}

/// The late names of a form, in row order.
pub fn late(outline: &Outline, rows: &[Row], slip: Slip) -> Vec<Late> {
    let mut all = Vec::new();
    for row in 0..rows.len() {
        let Some((looked, space, name, scopes)) = held(outline, rows, row, slip) else { continue };
        let free = matches!((slip, looked), (Slip::InstanceFree, Looked::Instance) | (Slip::IndexFree, Looked::Index));
        let Some(stands) = later(outline, space, name, &scopes, outline.scope_of[row], slip) else { continue };
        let time = match (looked, slip) {
            (Looked::Walked, _) | (Looked::Instance, Slip::InstanceInStepB) => outline.in_step_b(row),
            (Looked::Instance, _) => outline.as_inserted(row),
            (Looked::Index, _) => outline.as_operand(row),
        };
        if !free {
            all.push(Late { row, time, looked, stands });
        }
    }
    all
}
