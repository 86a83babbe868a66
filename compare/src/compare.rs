//! One form on both sides: the answer, the place, every byte written and every byte not written.

use crate::chance::Chance;
use crate::generate;
use crate::newer;
use crate::oracle::Oracle;
use crate::recognise::recognise_as;
use crate::rows::{Answer, FIRST, Row, Version};
use crate::shapes::Shapes;

/// A resolver as a C program calls it: `wnt_resolve`, or a copy of its answers with a planted change.
pub type Subject = fn(&[u8], &mut [u8]) -> u64;

/// A form with the output that is lent for it and the tree that is made of it.
#[derive(Clone)]
pub struct Case {
    pub form: Vec<u8>,
    pub out_len: usize,
    pub fill: u64,
    pub choice: u64,
}

impl Case {
    /// A case with an output that is exact, longer or, now and then, too short.
    pub fn new(form: Vec<u8>, chance: &mut Chance) -> Case {
        let enough = needed(&form);
        let out_len = match chance.below(40) {
            0 => enough.saturating_sub(1),
            1 => chance.below(enough + 1),
            2..=20 => enough,
            _ => enough + chance.below(80),
        };
        Case { form, out_len, fill: chance.next(), choice: chance.next() }
    }

    /// A case with an output that is just long enough.
    pub fn exact(form: Vec<u8>, chance: &mut Chance) -> Case {
        Case { out_len: needed(&form), form, fill: chance.next(), choice: chance.next() }
    }

    /// The same case on another form, with as much room beyond what is needed.
    pub fn with_form(&self, form: Vec<u8>) -> Case {
        let more = self.out_len as isize - needed(&self.form) as isize;
        let out_len = needed(&form).saturating_add_signed(more);
        Case { form, out_len, ..self.clone() }
    }

    /// What the output holds before the call.
    pub fn pattern(&self) -> Vec<u8> {
        let words = (0..self.out_len.div_ceil(8)).map(|at| self.fill.rotate_left(at as u32 % 61) | 1);
        let mut bytes: Vec<u8> = words.flat_map(u64::to_le_bytes).collect();
        bytes.truncate(self.out_len);
        bytes
    }
}

/// How long an output must be by a form's header, whose row count is cut to what the form's bytes hold.
pub fn needed(form: &[u8]) -> usize {
    let version = Version::of(form);
    version.output_size(version.count(form).min(form.len() / 16))
}

/// What one side did: its answer and the output afterwards.
#[derive(PartialEq, Eq)]
pub struct Outcome {
    pub packed: u64,
    pub out: Vec<u8>,
}

pub struct Comparison {
    pub shapes: Shapes,
    /// Those of rule set 1.
    newer_shapes: Shapes,
    pub oracle: Oracle,
    pub subject: Subject,
}

pub struct Difference {
    pub expected: Outcome,
    pub found: Outcome,
}

impl Comparison {
    pub fn new(oracle: Oracle, subject: Subject) -> Comparison {
        Comparison { shapes: Shapes::new(), newer_shapes: Shapes::newer(), oracle, subject }
    }

    /// The answer by document 01 for refusals 1 to 5, by the crate for everything else.
    pub fn expected(&self, case: &Case) -> Answer {
        self.expected_as(FIRST, case)
    }

    /// The same for a form of this version, under rule set 1 by the reading of `newer`.
    pub fn expected_as(&self, version: Version, case: &Case) -> Answer {
        match recognise_as(version, self.shapes_of(version), &case.form, case.out_len) {
            Ok(rows) => self.answer_as(version, &rows, case.choice),
            Err((number, place)) => Answer::refused(number, place),
        }
    }

    /// What is answered to the rows of a form of this version.
    pub fn answer_as(&self, version: Version, rows: &[Row], choice: u64) -> Answer {
        match version.rules {
            0 => self.oracle.answer(rows, choice),
            _ => newer::answer(&self.oracle, rows, choice).0,
        }
    }

    pub fn shapes_of(&self, version: Version) -> &Shapes {
        if version.rules == 0 { &self.shapes } else { &self.newer_shapes }
    }

    /// A random well-formed form of this version, though it may be too long or too deep.
    pub fn form_of(&self, version: Version, chance: &mut Chance) -> Vec<Row> {
        match version.rules {
            0 => generate::form_of(version, &self.shapes, chance.next()),
            _ => newer::form(&self.newer_shapes, chance),
        }
    }

    /// The bytes of what the crate makes of a form, if it accepts it.
    pub fn resolved(&self, form: &[u8]) -> Option<Vec<u8>> {
        self.resolved_as(FIRST, form)
    }

    /// The same for a form of this version.
    pub fn resolved_as(&self, version: Version, form: &[u8]) -> Option<Vec<u8>> {
        match self.expected_as(version, &Case { form: form.to_vec(), out_len: usize::MAX, fill: 0, choice: 0 }) {
            Answer::Accepted(rows) => Some(version.encode(&rows)),
            _ => None,
        }
    }

    /// The expected answer, and the difference if there is one.
    pub fn check(&self, case: &Case) -> (Answer, Option<Difference>) {
        let answer = self.expected(case);
        let mut out = case.pattern();
        let expected = Outcome { packed: answer.packed(), out: after(&answer, &case.form, out.clone()) };
        let found = Outcome { packed: (self.subject)(&case.form, &mut out), out };
        let difference = (expected != found).then_some(Difference { expected, found });
        (answer, difference)
    }

    pub fn differs(&self, case: &Case) -> bool {
        self.check(case).1.is_some()
    }
}

/// The output after this answer.
pub fn after(answer: &Answer, form: &[u8], mut out: Vec<u8>) -> Vec<u8> {
    let written = match answer {
        Answer::Accepted(rows) => Version::of(form).encode(rows),
        Answer::Refused { number: 6.., .. } => Vec::new(),
        Answer::Refused { .. } | Answer::Panicked => return out,
    };
    let front = &mut out[..needed(form)];
    front.fill(0);
    front[..written.len()].copy_from_slice(&written);
    out
}
