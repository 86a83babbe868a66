//! A mender of its own, after request R-11: what becomes of a spoilt form, and the list of changes.

use crate::recognise::read_within;
use crate::rows::{
    CASE, CLOSE, DECL, EXPORT, FIELD, FIRST, NEWER, OPEN, OUTER, PATH, REF, ROW, RULES_AT, SECOND, Version,
};
use crate::shapes::Shapes;

/// The fields whose e says something: a builtin's code, and whether an export has an ascribed type.
const BUILTIN: u8 = 19;
const EXPORTED: u8 = 22;

/// Where the parts b, e, x, y and z of a row begin and end.
const PARTS: [(usize, usize); 5] = [(1, 2), (2, 4), (4, 8), (8, 12), (12, 16)];

/// What a mending leaves: the answer as `wnt_mend` packs it, and both buffers.
#[derive(Clone, Debug, PartialEq, Eq)]
pub struct Left {
    pub answer: u64,
    pub buffer: Vec<u8>,
    pub list: Vec<u8>,
}

/// A change: from this byte on the form had `before`, and has `now`.
struct Change {
    at: usize,
    before: Vec<u8>,
    now: Vec<u8>,
}

/// Which of the parts b, e, x, y, z of a row of this code 01 says are zero.
fn zero_parts(code: u8, b: u8) -> [bool; 5] {
    let letters = match code {
        FIELD if b == BUILTIN || b == EXPORTED => "xy",
        FIELD => "exy",
        DECL => "ey",
        REF | OUTER => "",
        PATH | EXPORT => "beyz",
        CASE => "bey",
        OPEN => "eyz",
        CLOSE => "bexyz",
        _ => "",
    };
    ["b", "e", "x", "y", "z"].map(|letter| letters.contains(letter))
}

/// A row with zeros where 01 says so.
fn mended_row(row: &[u8]) -> Vec<u8> {
    let mut now = row.to_vec();
    for ((start, end), is_zero) in PARTS.into_iter().zip(zero_parts(row[0], row[1])) {
        if is_zero {
            now[start..end].fill(0);
        }
    }
    if row[0] == OUTER {
        now[2] &= 3;
        now[3] = 0;
    }
    now
}

/// How many of the rows stay, and how many scopes are open behind them.
fn kept(rows: &[&[u8]]) -> (usize, usize) {
    let mut open = 0;
    for (number, row) in rows.iter().enumerate() {
        match row[0] {
            OPEN => open += 1,
            CLOSE if open <= 1 => return (number + 1, 0),
            CLOSE => open -= 1,
            _ => {}
        }
    }
    (rows.len(), open)
}

/// The version whose header a spoilt form begins with. Byte 5 of version 1 is mended, and so is not asked.
fn header_of(form: &[u8]) -> Option<Version> {
    let begins = |version: Version| form.len() >= version.header && form[..5] == version.head(0)[..5];
    let asks = |version: Version| version == FIRST || form[RULES_AT] == version.rules;
    [FIRST, SECOND, NEWER].into_iter().find(|version| begins(*version) && asks(*version))
}

/// The pieces of a form that begins as one of this version does: all that can change, in the form's order.
fn pieces(version: Version, form: &[u8]) -> Vec<Change> {
    let rows: Vec<&[u8]> = form[version.header..].chunks_exact(ROW).collect();
    let (stay, open) = kept(&rows);
    let head = version.head(stay + open);
    let piece = |at: usize, before: &[u8], now: Vec<u8>| Change { at, before: before.to_vec(), now };
    let behind = 6 + version.counting;
    let mut all: Vec<Change> = [(5, 6), (6, behind), (behind, version.header)]
        .map(|(start, end)| piece(start, &form[start..end], head[start..end].to_vec()))
        .into();
    for (number, row) in rows[..stay].iter().enumerate() {
        let now = mended_row(row);
        let part = |(start, end): (usize, usize)| {
            piece(version.form_size(number) + start, &row[start..end], now[start..end].to_vec())
        };
        all.extend(PARTS.map(part));
    }
    let mut close = [0; ROW];
    close[0] = CLOSE;
    let last = version.form_size(stay);
    all.push(piece(last, &form[last..], close.repeat(open)));
    all
}

/// The list's bytes.
fn listed(changes: &[Change]) -> Vec<u8> {
    let mut list = Vec::new();
    for change in changes {
        for word in [change.at, change.before.len(), change.now.len()] {
            list.extend((word as u32).to_le_bytes());
        }
        list.extend(&change.before);
        list.resize(list.len().next_multiple_of(4), 0);
    }
    list
}

/// The form with all changes made.
fn changed(form: &[u8], changes: &[Change]) -> Vec<u8> {
    let mut now = form.to_vec();
    for change in changes.iter().rev() {
        now.splice(change.at..change.at + change.before.len(), change.now.iter().copied());
    }
    now
}

/// A refusal, or the mended form and the changes. The shapes are those of the two rule sets.
fn mended(shapes: &[Shapes; 2], form: &[u8], room: usize, space: usize) -> Result<(Vec<u8>, Vec<Change>), (u32, u32)> {
    let version = header_of(form).ok_or((1, 0))?;
    let mut changes = pieces(version, form);
    changes.retain(|change| change.before != change.now);
    let now = changed(form, &changes);
    let rows = (now.len() - version.header) / ROW;
    if rows == 0 || rows > version.rows {
        return Err((2, 0));
    }
    if room < now.len() || space < listed(&changes).len() {
        return Err((3, 0));
    }
    read_within(&shapes[usize::from(version.rules)], &version.decode(&now), version.scopes)?;
    Ok((now, changes))
}

/// What mending the first `long` bytes of a buffer leaves.
pub fn mend(shapes: &[Shapes; 2], buffer: &[u8], long: usize, list: &[u8]) -> Left {
    let (mut buffer, mut list) = (buffer.to_vec(), list.to_vec());
    let result = match buffer.get(..long) {
        Some(form) => mended(shapes, form, buffer.len(), list.len()),
        None => Err((2, 0)),
    };
    let answer = match result {
        Err((number, place)) => (u64::from(number) << 32) | u64::from(place),
        Ok((form, changes)) => {
            let bytes = listed(&changes);
            buffer[..form.len()].copy_from_slice(&form);
            if form.len() < long {
                buffer[form.len()..long].fill(0);
            }
            list[..bytes.len()].copy_from_slice(&bytes);
            changes.len() as u64
        }
    };
    Left { answer, buffer, list }
}
