//! `wnt_resolve_with` under rule set 1, which the crate does not have: the crate's answers, filtered by a second reading of document 02,
//! R-8; and the same rows under rule set 0 beside the crate as it is.

use crate::chance::Chance;
use crate::compare::{Case, Comparison};
use crate::damage::damage_as;
use crate::lent::{Lender, Lent, Needs};
use crate::oracle::Oracle;
use crate::recognise::{read_within, recognise_as};
use crate::rows::{Answer, NEWER, RULES_AT, Row};
pub use forms::{form, tame};
use late::{Late, SLIPS, Slip};
use outline::{Outline, Time};
use std::collections::BTreeMap;
use std::time::Instant;

mod crate_form;
mod forms;
mod late;
mod outline;
mod stated;

/// The refusal of a name that no earlier field declares.
const NOT_EARLIER: u32 = 13;

/// One form out of this many is damaged.
const DAMAGED: u64 = 8;

/// What the crate says of the rows of a form: its answer, carried back, and when it refuses.
struct Asked {
    outline: Outline,
    answer: Answer,
    refused: Option<Time>,
}

impl Asked {
    fn new(oracle: &Oracle, rows: &[Row], choice: u64) -> Asked {
        let outline = Outline::of(rows);
        match oracle.answer(&crate_form::asked(rows, &outline), choice) {
            Answer::Accepted(out) => {
                Asked { answer: Answer::Accepted(crate_form::back(rows, &out)), refused: None, outline }
            }
            Answer::Refused { number, place } => {
                let row = place as usize - 1;
                let refused = Some(outline.refused(rows, number, row));
                Asked { answer: Answer::refused(number, rows[row].z), refused, outline }
            }
            Answer::Panicked => Asked { answer: Answer::Panicked, refused: None, outline },
        }
    }

    /// The answer of rule set 1, and the late name that is refused, if one is.
    fn filtered(&self, rows: &[Row], slip: Slip) -> (Answer, Option<Late>) {
        let all = late::late(&self.outline, rows, slip).into_iter();
        match all.min_by(|one, other| one.time.cmp(&other.time)) {
            Some(late) if self.comes_to(&late, slip) => (Answer::refused(NOT_EARLIER, rows[late.row].z), Some(late)),
            _ => (self.answer.clone(), None),
        }
    }

    /// Whether a run comes to a late name before it is refused otherwise; at one reference 13 is ahead of 8.
    fn comes_to(&self, late: &Late, slip: Slip) -> bool {
        self.refused.as_ref().is_none_or(|refused| match late.time.cmp(refused) {
            std::cmp::Ordering::Less => true,
            std::cmp::Ordering::Equal => slip != Slip::BehindEight,
            std::cmp::Ordering::Greater => false,
        })
    }
}

/// The answer of rule set 1 to the rows of a form, and the late name that is refused, if one is.
pub fn answer(oracle: &Oracle, rows: &[Row], choice: u64) -> (Answer, Option<Late>) {
    Asked::new(oracle, rows, choice).filtered(rows, Slip::None)
}

/// The answer that is expected, and the late name that is refused, if one is.
fn expected(comparison: &Comparison, lent: &Lent) -> (Answer, Option<Late>) {
    let (version, case) = lent.asked();
    if version != NEWER {
        return (comparison.expected_as(version, &case), None);
    }
    match recognise_as(NEWER, comparison.shapes_of(NEWER), &case.form, case.out_len) {
        Ok(rows) => answer(&comparison.oracle, &rows, case.choice),
        Err((number, place)) => (Answer::refused(number, place), None),
    }
}

/// The form of this number under rule set 1, and whether it is damaged.
fn drawn(comparison: &Comparison, seed: u64, number: u64) -> (Lent, bool) {
    let mut chance = Chance::new(seed.rotate_left(32) ^ number ^ 0x52_3800);
    let rows = comparison.form_of(NEWER, &mut chance);
    let damaged = number % DAMAGED == 0;
    let mut form = if damaged { damage_as(NEWER, &rows, &mut chance) } else { NEWER.encode(&rows) };
    if let Some(rules) = form.get_mut(RULES_AT).filter(|rules| **rules == 0) {
        *rules = NEWER.rules;
    }
    let lengths = Needs::of(NEWER).lengths(&mut chance);
    (Lent { case: Case::new(form, &mut chance), lengths }, damaged)
}

/// Whether the reading answers what is stated.
fn stated_cases_hold(comparison: &Comparison) -> bool {
    let answered = |rows: &[Row]| {
        let case = Case { form: NEWER.encode(rows), out_len: usize::MAX, fill: 0, choice: 0 };
        comparison.expected_as(NEWER, &case)
    };
    let wrong: Vec<_> = stated::cases().into_iter().filter(|case| answered(&case.rows) != case.answer).collect();
    for case in &wrong {
        println!("{}: stated {:?}, read {:?}", case.name, case.answer, answered(&case.rows));
    }
    wrong.is_empty()
}

/// Counts of what a run has seen.
#[derive(Default)]
struct Tally {
    answers: [u64; 14],
    /// How often each kind of late name was refused.
    kinds: BTreeMap<&'static str, u64>,
    inserted: u64,
    /// For each deliberate error, the number of the form that first shows it.
    shown: BTreeMap<String, u64>,
}

impl Tally {
    fn count(&mut self, answer: &Answer, late: Option<&Late>) {
        let number = match answer {
            Answer::Accepted(rows) => {
                let inserted = |row: &&Row| row.code == crate::rows::DECL && row.x >= crate::rows::FIRST_INSERTED;
                self.inserted += rows.iter().filter(inserted).count() as u64;
                0
            }
            Answer::Refused { number, .. } => *number as usize,
            Answer::Panicked => panic!("the crate stopped"),
        };
        self.answers[number] += 1;
        if let Some(late) = late {
            *self.kinds.entry(forms::said(late.looked, late.stands)).or_default() += 1;
        }
    }

    /// Which deliberate errors the form of this number shows.
    fn try_slips(&mut self, asked: &Asked, rows: &[Row], number: u64) {
        let right = asked.filtered(rows, Slip::None).0;
        for slip in SLIPS {
            let name = format!("{slip:?}");
            if !self.shown.contains_key(&name) && asked.filtered(rows, slip).0 != right {
                self.shown.insert(name, number);
            }
        }
    }

    fn print(&self) {
        let refusals: Vec<String> = (1..14).map(|number| format!("{number}: {}", self.answers[number])).collect();
        println!(
            "accepted {} with {} inserted fields; refusals {}",
            self.answers[0],
            self.inserted,
            refusals.join(", ")
        );
        for (kind, count) in &self.kinds {
            println!("13, {kind}: {count}");
        }
    }

    /// Whether each deliberate error was shown by a form.
    fn all_shown(&self) -> bool {
        for (slip, form) in &self.shown {
            println!("{slip}: shown by form {form}");
        }
        let hidden: Vec<&Slip> = SLIPS.iter().filter(|slip| !self.shown.contains_key(&format!("{slip:?}"))).collect();
        for slip in &hidden {
            println!("{slip:?}: NOT SHOWN");
        }
        hidden.is_empty()
    }
}

/// Compares on `count` forms under rule set 1, and on the same rows under rule set 0; answers whether there was no difference.
pub fn run(comparison: &Comparison, seed: u64, count: u64) -> bool {
    if !stated_cases_hold(comparison) {
        return false;
    }
    let start = Instant::now();
    let (mut tally, mut today, mut lender) = (Tally::default(), Tally::default(), Lender::new());
    for number in 0..count {
        let (lent, damaged) = drawn(comparison, seed, number);
        let mut older = Lent { case: lent.case.clone(), lengths: lent.lengths };
        if let Some(rules) = older.case.form.get_mut(RULES_AT).filter(|rules| **rules == NEWER.rules) {
            *rules = 0;
        }
        for (lent, tally) in [(&lent, &mut tally), (&older, &mut today)] {
            let (answer, late) = expected(comparison, lent);
            tally.count(&answer, late.as_ref());
            if let Some(what) = lent.differs(&mut lender, &answer) {
                let Case { form, out_len, .. } = &lent.case;
                println!(
                    "form {number}, damaged: {damaged}: {what} differs; output of {out_len}, areas of {:?}",
                    lent.lengths
                );
                println!("expected {:#x}; the form: {form:?}", answer.packed());
                return false;
            }
        }
        if (number + 1) % 20_000 == 0 {
            eprintln!("{} forms in {} s, no difference so far", number + 1, start.elapsed().as_secs());
        }
    }
    println!("rule set 1:");
    tally.print();
    println!("rule set 0:");
    today.print();
    println!("{count} forms compared under both rule sets in {:.1} s, 0 differences", start.elapsed().as_secs_f64());
    true
}

/// Reads `count` forms under rule set 1 without the library; answers whether the stated cases hold and each deliberate error shows.
pub fn read(comparison: &Comparison, seed: u64, count: u64) -> bool {
    if !stated_cases_hold(comparison) {
        return false;
    }
    let mut tally = Tally::default();
    for number in 0..count {
        let (lent, damaged) = drawn(comparison, seed, number);
        let (answer, late) = expected(comparison, &lent);
        tally.count(&answer, late.as_ref());
        if damaged {
            continue;
        }
        let rows = NEWER.decode(&lent.case.form);
        match read_within(comparison.shapes_of(NEWER), &rows, NEWER.scopes) {
            Ok(()) => tally.try_slips(&Asked::new(&comparison.oracle, &rows, lent.case.choice), &rows, number),
            Err((4, row)) => {
                println!("form {number} was to be well-formed and is not, at row {row}");
                return false;
            }
            Err(_) => {}
        }
    }
    tally.print();
    println!("{} stated cases hold; {count} forms read", stated::cases().len());
    tally.all_shown()
}
