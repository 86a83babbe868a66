//! Counts of what a run has seen.

use crate::compare::Case;
use crate::rows::{Answer, CLOSE, DECL, FIELD, FIRST_INSERTED, OPEN, Row, Version};
use crate::shapes::{BUILTIN_FIELD, BUILTINS, EXPORT_FIELD, FIELDS, SIX, allowed};
use crate::source::Stage;
use std::collections::BTreeSet;

#[derive(Default)]
pub struct Tally {
    pub forms: u64,
    stages: [u64; 5],
    rows: u64,
    inserted: u64,
    answers: [u64; 13],
    fields: BTreeSet<(u8, u8)>,
    builtins: BTreeSet<u16>,
    ascribed: u64,
    spaces: BTreeSet<u8>,
}

impl Tally {
    pub fn count(&mut self, stage: Stage, case: &Case, answer: &Answer) {
        self.forms += 1;
        self.stages[stage as usize] += 1;
        let number = match answer {
            Answer::Accepted(rows) => {
                self.inserted += rows.iter().filter(|row| row.code == DECL && row.x >= FIRST_INSERTED).count() as u64;
                0
            }
            Answer::Refused { number, .. } => *number as usize,
            Answer::Panicked => return,
        };
        self.answers[number] += 1;
        if number == 0 {
            let rows = Version::of(&case.form).decode(&case.form);
            self.rows += rows.len() as u64;
            self.cover(&rows);
        }
    }

    /// Notes which fields an accepted form has, and in which kind of scope.
    fn cover(&mut self, rows: &[Row]) {
        let mut kinds = Vec::new();
        for (at, row) in rows.iter().enumerate() {
            match row.code {
                OPEN => kinds.push(row.b),
                CLOSE => drop(kinds.pop()),
                FIELD => {
                    self.fields.extend(kinds.last().map(|kind| (*kind, row.b)));
                    if row.b == BUILTIN_FIELD {
                        self.builtins.insert(row.e);
                    }
                    if row.b == EXPORT_FIELD && row.e == 1 {
                        self.ascribed += 1;
                        self.spaces.insert(rows[at + 1].b);
                    }
                }
                _ => {}
            }
        }
    }

    pub fn summary(&self) -> String {
        let refusals: Vec<String> = (1..13).map(|number| format!("{number}: {}", self.answers[number])).collect();
        let pairs = (0..4).map(|kind| (1..=FIELDS).filter(|field| allowed(kind, *field)).count()).sum::<usize>();
        let [stated, limits, sweep, random, damaged] = self.stages;
        format!(
            "forms: stated {stated}, limits {limits}, sweep {sweep}, random {random}, damaged {damaged}\n\
             accepted {} forms with {} rows and {} inserted fields\nrefusals {}\n\
             fields of accepted forms by kind of scope {} of {pairs}, builtins {} of {BUILTINS}, \
             exports with an ascribed type {} of {} of {} spaces",
            self.answers[0],
            self.rows,
            self.inserted,
            refusals.join(", "),
            self.fields.len(),
            self.builtins.len(),
            self.ascribed,
            self.spaces.len(),
            SIX.each().count(),
        )
    }
}
