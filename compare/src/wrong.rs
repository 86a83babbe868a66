//! Wrong claims: the rows of a right one with something changed that a partner's tool might get wrong.

use crate::chance::Chance;
use crate::damage::damage_as;
use crate::rows::{CLOSE, DECL, EXPORT, FIELD, FIRST_INSERTED, OPEN, OUTER, PATH, REF, RULES_AT, Row, Version};

/// The bytes of a claim after one change of a kind, now and then after two.
pub fn spoilt(version: Version, claim: &[Row], input: &[Row], chance: &mut Chance) -> Vec<u8> {
    let mut rows = claim.to_vec();
    for _ in 0..1 + chance.below(6) / 5 {
        match chance.below(13) {
            0 | 1 => number(&mut rows, chance),
            2 => alias(&mut rows, chance),
            3 => name_left(&mut rows, input, chance),
            4 => path_left(&mut rows, chance),
            5 => field(&mut rows, chance),
            6 => declared(&mut rows, chance),
            7 => place(&mut rows, chance),
            8 => swapped(&mut rows, chance),
            9 => one_alias_for_another(&mut rows, chance),
            10 => no_alias(&mut rows, chance),
            11 => return header(version, &rows, chance),
            _ => return damage_as(version, &rows, chance),
        }
    }
    version.encode(&rows)
}

/// One of the rows that are so, if there is one.
fn one(rows: &[Row], chance: &mut Chance, is_so: impl Fn(&Row) -> bool) -> Option<usize> {
    let there: Vec<usize> = (0..rows.len()).filter(|at| is_so(&rows[*at])).collect();
    (!there.is_empty()).then(|| chance.pick(&there))
}

/// Another number near it.
fn near(number: u32, chance: &mut Chance) -> u32 {
    match chance.below(4) {
        0 => number.wrapping_sub(1),
        1 => chance.below(6) as u32,
        2 => chance.next() as u32,
        _ => number.wrapping_add(1),
    }
}

fn number(rows: &mut [Row], chance: &mut Chance) {
    if let Some(at) = one(rows, chance, |row| row.code == REF || row.code == OUTER) {
        let row = &mut rows[at];
        if row.code == OUTER && chance.percent(50) {
            row.y = near(row.y, chance);
        } else {
            row.x = near(row.x, chance);
        }
    }
}

/// The rows of an added field, from its FIELD on.
fn added(rows: &[Row], chance: &mut Chance) -> Option<usize> {
    let at = one(rows, chance, |row| row.code == DECL && row.x >= FIRST_INSERTED)?;
    rows[..at].iter().rposition(|row| row.code == FIELD)
}

/// An alias of another count, index, instance, export, code or space.
fn alias(rows: &mut [Row], chance: &mut Chance) {
    let Some(at) = added(rows, chance) else { return };
    let end = rows.len().min(at + 4);
    let part = &mut rows[at..end];
    match chance.below(5) {
        0 => part[0].b = chance.pick(&[9, 10, 11, 12]),
        1 => part[1].b = chance.below(13) as u8,
        2 => part.iter_mut().filter(|row| row.code == EXPORT).for_each(|row| row.x = near(row.x, chance)),
        3 => part[2].x = near(part[2].x, chance),
        _ if part[2].code == OUTER => part[2].y = near(part[2].y, chance),
        _ => part[2].e = 1,
    }
}

/// A name of the input stands where a number should.
fn name_left(rows: &mut [Row], input: &[Row], chance: &mut Chance) {
    let named = one(input, chance, |row| row.code == REF && row.e == 1);
    let name = named.map_or(1, |at| input[at].x);
    if let Some(at) = one(rows, chance, |row| row.code == REF || row.code == OUTER) {
        let bits = if rows[at].code == REF { 1 } else { 1 + chance.below(3) as u16 };
        (rows[at].e, rows[at].x) = (bits, name);
        if bits & 2 == 2 {
            rows[at].y = name;
        }
    }
}

fn path_left(rows: &mut Vec<Row>, chance: &mut Chance) {
    if let Some(at) = one(rows, chance, |row| row.code == REF) {
        rows[at].y = 1;
        rows.insert(at + 1, Row::new(PATH, 0, 0, chance.below(4) as u32, 0, 0));
    }
}

/// The rows of the field that begins here, with a scope that it opens.
fn field_at(rows: &[Row], at: usize) -> usize {
    let mut depth = 0;
    for (end, row) in rows.iter().enumerate().skip(at + 1) {
        match row.code {
            OPEN => depth += 1,
            CLOSE if depth > 0 => depth -= 1,
            FIELD | CLOSE if depth == 0 => return end,
            _ => {}
        }
    }
    rows.len()
}

/// A field dropped, doubled or moved.
fn field(rows: &mut Vec<Row>, chance: &mut Chance) {
    let Some(at) = one(rows, chance, |row| row.code == FIELD) else { return };
    let end = field_at(rows, at);
    let kind = chance.below(3);
    let part: Vec<Row> = if kind == 1 { rows[at..end].to_vec() } else { rows.drain(at..end).collect() };
    if kind > 0 {
        let to = one(rows, chance, |row| row.code == FIELD || row.code == CLOSE).unwrap_or(at);
        rows.splice(to..to, part);
    }
}

/// Another name: one that makes its field an added one, or an added one's that is there already.
fn declared(rows: &mut [Row], chance: &mut Chance) {
    let other = one(rows, chance, |row| row.code == DECL && row.x >= FIRST_INSERTED);
    let name = other.filter(|_| chance.percent(70)).map_or(FIRST_INSERTED + chance.below(3) as u32, |at| rows[at].x);
    let Some(at) = one(rows, chance, |row| row.code == DECL) else { return };
    rows[at].x = if chance.percent(80) { name } else { 1 + chance.below(9) as u32 };
    // A scope has the name of its field.
    if rows.get(at + 1).is_some_and(|row| row.code == OPEN) && chance.percent(80) {
        rows[at + 1].x = rows[at].x;
    }
}

fn place(rows: &mut [Row], chance: &mut Chance) {
    if let Some(at) = one(rows, chance, |row| matches!(row.code, FIELD | DECL | REF | OUTER)) {
        rows[at].z = near(rows[at].z, chance);
    }
}

/// The numbers of two references are exchanged.
fn swapped(rows: &mut [Row], chance: &mut Chance) {
    let (one_at, other) = (one(rows, chance, |r| r.code == REF), one(rows, chance, |r| r.code == REF));
    if let (Some(a), Some(b)) = (one_at, other) {
        (rows[a].x, rows[b].x) = (rows[b].x, rows[a].x);
    }
}

/// The operand of one alias stands in another.
fn one_alias_for_another(rows: &mut [Row], chance: &mut Chance) {
    if let (Some(a), Some(b)) = (added(rows, chance), added(rows, chance)) {
        if rows[a].b == rows[b].b && rows[a + 1].b == rows[b + 1].b {
            (rows[a + 2].x, rows[a + 2].y) = (rows[b + 2].x, rows[b + 2].y);
        }
    }
}

/// An added field that is no alias: a core type, a type or a component.
fn no_alias(rows: &mut Vec<Row>, chance: &mut Chance) {
    let Some(at) = one(rows, chance, |row| row.code == FIELD || row.code == CLOSE) else { return };
    let name = FIRST_INSERTED + 50 + chance.below(9) as u32;
    let (code, space) = chance.pick(&[(4, 4), (12, 9), (12, 9), (6, 11)]);
    let mut field = vec![Row::new(FIELD, code, 0, 0, 0, 1), Row::new(DECL, space, 0, name, 0, 1)];
    if code == 6 {
        field.extend([Row::new(OPEN, 0, 0, name, 0, 0), Row::new(CLOSE, 0, 0, 0, 0, 0)]);
    }
    rows.splice(at..at, field);
}

fn header(version: Version, rows: &[Row], chance: &mut Chance) -> Vec<u8> {
    let mut bytes = version.encode(rows);
    let zeros = version.header - (6 + version.counting);
    match chance.below(5 + usize::from(zeros > 0)) {
        0 => bytes[3] = 3 - version.number,
        1 => bytes[RULES_AT] ^= 1,
        2 => bytes[6] = bytes[6].wrapping_add(1),
        3 => bytes.truncate(bytes.len() - 16),
        4 => bytes.truncate(chance.below(version.header + 1)),
        _ => bytes[6 + version.counting + chance.below(zeros)] = 1,
    }
    bytes
}
