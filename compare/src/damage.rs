//! Damaged forms: bytes that were a form before a few things were changed.

use crate::chance::Chance;
use crate::rows::{FIELD, FIRST, FIRST_INSERTED, ROW, Row, Version};

/// The bytes of the rows, as a form of version 1, after one to three changes.
pub fn damage(rows: &[Row], chance: &mut Chance) -> Vec<u8> {
    damage_as(FIRST, rows, chance)
}

/// The same as a form of this version.
pub fn damage_as(version: Version, rows: &[Row], chance: &mut Chance) -> Vec<u8> {
    let mut rows = rows.to_vec();
    for _ in 0..chance.below(3) {
        damage_rows(&mut rows, chance);
    }
    let mut bytes = version.encode(&rows);
    if chance.percent(50) {
        damage_bytes(version, &mut bytes, chance);
    }
    bytes
}

fn damage_rows(rows: &mut Vec<Row>, chance: &mut Chance) {
    if rows.is_empty() {
        return;
    }
    let (one, other) = (chance.below(rows.len()), chance.below(rows.len()));
    match chance.below(7) {
        0 => rows.swap(one, other),
        1 => drop(rows.remove(one)),
        2 => rows.insert(one, rows[other]),
        3 => rows[one] = rows[other],
        4 => rows.truncate(one),
        5 => rows[one].code = chance.below(11) as u8,
        _ => damage_part(&mut rows[one], chance),
    }
}

fn damage_part(row: &mut Row, chance: &mut Chance) {
    let words = [0, 1, 2, 3, 7, 12, 13, FIRST_INSERTED - 1, FIRST_INSERTED, u32::MAX];
    let word = chance.pick(&words);
    match chance.below(6) {
        0 if row.code == FIELD => row.b = chance.below(28) as u8,
        0 => row.b = chance.below(15) as u8,
        1 => row.e = chance.pick(&[0, 1, 2, 3, 4, 47, 48, 256]),
        2 => row.x = word,
        3 => row.y = word,
        4 => row.y = row.y.wrapping_add(1),
        _ => row.z = word,
    }
}

fn damage_bytes(version: Version, bytes: &mut Vec<u8>, chance: &mut Chance) {
    let at = chance.below(bytes.len());
    match chance.below(6) {
        0 | 1 => bytes[at] ^= 1 << chance.below(8),
        2 => bytes[chance.below(version.header)] = chance.below(5) as u8,
        3 => bytes.truncate(at),
        4 => bytes.extend(vec![0; chance.pick(&[1, ROW])]),
        _ => bytes[at] = chance.next() as u8,
    }
}
