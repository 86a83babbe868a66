//! Random forms and random mappings of names: what is resolved with other names is what was resolved, but for the names.

use crate::chance::Chance;
use crate::compare::Comparison;
use crate::library;
use crate::rows::{self, CASE, DECL, FIRST_INSERTED, OPEN, OUTER, REF, Row};
use crate::source;
use std::collections::HashMap;
use std::collections::hash_map::Entry;

/// A mapping of names that keeps different names different, chosen as the names come.
struct Mapping {
    new_of: HashMap<u32, u32>,
    old_of: HashMap<u32, u32>,
    chance: Chance,
    highest: u32,
}

impl Mapping {
    fn new(seed: u64) -> Mapping {
        let mut chance = Chance::new(seed);
        let highest = chance.pick(&[5_000, 1_000_000, FIRST_INSERTED - 1]);
        Mapping { new_of: HashMap::new(), old_of: HashMap::new(), chance, highest }
    }

    /// 0 is no name, and an input does not have the names of inserted fields.
    fn name(&mut self, old: u32) -> u32 {
        if old == 0 || old >= FIRST_INSERTED {
            return old;
        }
        if let Some(new) = self.new_of.get(&old) {
            return *new;
        }
        loop {
            let new = 1 + self.chance.below(self.highest as usize) as u32;
            if let Entry::Vacant(free) = self.old_of.entry(new) {
                free.insert(old);
                self.new_of.insert(old, new);
                return new;
            }
        }
    }

    fn row(&mut self, row: Row) -> Row {
        let mut new = row;
        match row.code {
            DECL | CASE | OPEN => new.x = self.name(row.x),
            REF if row.e == 1 => new.x = self.name(row.x),
            OUTER if row.e < 4 => {
                if row.e % 2 == 1 {
                    new.x = self.name(row.x);
                }
                if row.e / 2 == 1 {
                    new.y = self.name(row.y);
                }
            }
            _ => {}
        }
        new
    }

    /// The rows with their new names; all else stays.
    fn rows(&mut self, old: &[Row]) -> Vec<Row> {
        old.iter().map(|row| self.row(*row)).collect()
    }

    /// The bytes with their new names: the header stays, and so do bytes that are no whole rows.
    fn form(&mut self, old: &[u8]) -> Vec<u8> {
        let new = rows::encode(&self.rows(&rows::decode(old)));
        let mut bytes = old.to_vec();
        if new.len() <= bytes.len() {
            bytes[rows::HEADER..new.len()].copy_from_slice(&new[rows::HEADER..]);
        }
        bytes
    }
}

/// What the library answers, and what the output then holds.
fn resolved(form: &[u8], room: usize) -> (u64, Vec<u8>) {
    let mut out = vec![0xa5; room];
    let answer = library::resolve(form, &mut out);
    (answer, out)
}

/// Whether an answer and an output are those of the same form with other names.
fn is_renamed(old: &(u64, Vec<u8>), new: &(u64, Vec<u8>), mapping: &mut Mapping) -> bool {
    if old.0 != new.0 {
        return false;
    }
    if old.0 >> 32 != 0 {
        return old.1 == new.1;
    }
    let end = rows::HEADER + rows::ROW * old.0 as usize;
    let expected = rows::encode(&mapping.rows(&rows::decode(&old.1[..end])));
    expected == new.1[..end] && old.1[end..] == new.1[end..]
}

/// Renames `forms` random forms, and prints a summary line; answers whether there was no difference.
pub fn run(comparison: &Comparison, seed: u64, forms: u64) -> bool {
    let (mut accepted, mut refused) = (0, 0);
    for number in 0..forms {
        let case = source::random(&comparison.shapes, seed, number).1;
        let mut mapping = Mapping::new(seed.wrapping_add(number).wrapping_mul(0x9e37_79b9));
        let old = resolved(&case.form, case.out_len);
        let new = resolved(&mapping.form(&case.form), case.out_len);
        if !is_renamed(&old, &new, &mut mapping) {
            println!("form {number} of seed {seed} differs: {:#x} before, {:#x} after", old.0, new.0);
            return false;
        }
        if old.0 >> 32 == 0 { accepted += 1 } else { refused += 1 }
    }
    println!("{forms} forms renamed: {accepted} accepted, {refused} refused, 0 differences");
    true
}
