//! The vectors of resolving: forms with the expected answers, chosen so that few of them show much.

use super::{FILLED, Function, Lent, Sample, Vector, of_function, said, word};
use crate::compare::{Case, Comparison, after};
use crate::rows::{Answer, CLOSE, FIELD, HEADER, OPEN, REF, ROW, Row, decode};
use crate::shapes::EXPORT_FIELD;
use crate::source::{self, Stage};
use crate::tally::Tally;
use crate::told;
use std::collections::BTreeSet;

/// The most rows of a form of each stage, so that the file stays small.
fn largest(stage: Stage) -> usize {
    match stage {
        Stage::Limits => 140,
        _ => 24,
    }
}

/// How many random forms are looked through.
const RANDOM: u64 = 200_000;

/// How many numbers are told, and how many are lent: what lies behind those two stays.
const TOLD: usize = 2;
const LENT: usize = 3;

/// How many of each answer are asked of `wnt_resolve` as well, and with no room for what is told.
const PLAIN: usize = 12;
const SHORT: usize = 2;

/// The vectors of `kept` and behind them new ones, with at most `most` of each refusal in all; and what the new ones show.
pub fn vectors(comparison: &Comparison, kept: &[u8], most: usize, seed: u64, sample: &mut Sample) -> Tally {
    let (mut shown, mut forms) = (BTreeSet::new(), BTreeSet::new());
    let (mut like, mut tally) = ([0; 13], Tally::default());
    for old in of_function(kept, Function::ResolveTold) {
        let Some(case) = kept_case(old) else { continue };
        let answer = comparison.expected(&case);
        like[number(&answer)] += 1;
        shown.extend(features(&decode(&case.form), &answer));
        let mut again = Vec::new();
        telling(&case, &answer).append_to(&mut again);
        assert!(again == old, "a vector that is kept has another answer now");
        offer(comparison, &case, &answer, sample);
        forms.insert(case.form);
    }
    let fixed = source::fixed(&comparison.shapes).into_iter();
    let random = (0..RANDOM).map(|number| source::random(&comparison.shapes, seed, number));
    let small = |(stage, case): &(Stage, Case)| case.form.len() <= HEADER + ROW * largest(*stage);
    for (stage, case) in fixed.chain(random).filter(small) {
        let answer = comparison.expected(&case);
        let features = features(&decode(&case.form), &answer);
        let new = features.iter().any(|feature| !shown.contains(feature));
        let room = matches!(answer, Answer::Accepted(_)) || like[number(&answer)] < most;
        let fits = told::told(&case.form, &answer).is_some() && !forms.contains(&case.form);
        if (stage == Stage::Stated || (new && room)) && fits {
            like[number(&answer)] += 1;
            shown.extend(features);
            offer(comparison, &case, &answer, sample);
            tally.count(stage, &case, &answer);
        }
    }
    tally
}

/// The refusal's number, or 0.
fn number(answer: &Answer) -> usize {
    (answer.packed() >> 32) as usize
}

/// The case of a vector with room for what is told.
fn kept_case(vector: &[u8]) -> Option<Case> {
    let start = 4 * super::WORDS;
    let (form, out_len, told) = (word(vector, 4), word(vector, 7), word(vector, 10));
    let form = vector[start..start + form].to_vec();
    (told == LENT).then_some(Case { form, out_len, fill: 0, choice: 0 })
}

/// Takes the case for the function that tells, and for the first of each answer for the plain one and without room.
fn offer(comparison: &Comparison, case: &Case, answer: &Answer, sample: &mut Sample) {
    let kind = said(answer.packed());
    sample.offer([&*kind], usize::MAX, &telling(case, answer));
    let plain = Vector { function: Function::Resolve, lent: vec![output(case, answer)], ..telling(case, answer) };
    sample.offer([&*kind], PLAIN, &plain);
    let short = comparison.expected(&Case { out_len: 0, ..case.clone() });
    let lent = vec![Lent::cleared(case.out_len, 0), Lent::cleared(TOLD - 1, 0)];
    let no_room = Vector { answer: short.packed(), lent, ..telling(case, answer) };
    sample.offer([format!("no room for what is told, else {kind}")], SHORT, &no_room);
}

/// The output of a case after its answer.
fn output(case: &Case, answer: &Answer) -> Lent {
    Lent::holding(&after(answer, &case.form, vec![FILLED; case.out_len]))
}

/// The vector of a case for the function that tells.
fn telling(case: &Case, answer: &Answer) -> Vector {
    let told = told::told(&case.form, answer).expect("a vector's refusal tells one thing");
    let told = Lent::written(LENT, told.into_iter().flat_map(u32::to_le_bytes).collect());
    Vector {
        function: Function::ResolveTold,
        number: 0,
        answer: answer.packed(),
        inputs: vec![case.form.clone()],
        lent: vec![output(case, answer), told],
    }
}

/// What a vector shows: an accepted one each field with its kind of scope and its references, a refused one the
/// field and the row that the place is about.
fn features(rows: &[Row], answer: &Answer) -> BTreeSet<[u32; 4]> {
    let (mut kinds, mut field) = (Vec::new(), 0);
    let number = number(answer) as u32;
    let length = if (1..=3).contains(&number) { rows.len() as u32 } else { 0 };
    let mut features = BTreeSet::from([[100, number, length, 0]]);
    for (at, row) in rows.iter().enumerate() {
        match row.code {
            OPEN => kinds.push(row.b),
            CLOSE => drop(kinds.pop()),
            FIELD => field = shown_field(&rows[at..]),
            _ => {}
        }
        let kind = kinds.last().map_or(4, |kind| u32::from(*kind));
        features.extend(feature(answer, at as u32, *row, kind, field));
        if number == 0 && row.code == FIELD && row.b == EXPORT_FIELD {
            features.insert(export_feature(&rows[at..]));
        }
    }
    features
}

/// The code of the field that begins here; exports with an ascribed type count by the space that they declare.
fn shown_field(rows: &[Row]) -> u32 {
    let declared = rows.get(1).map_or(0, |decl| 1 + u32::from(decl.b));
    let ascribed = rows[0].b == EXPORT_FIELD && rows[0].e == 1;
    u32::from(rows[0].b) + if ascribed { 100 * declared } else { 0 }
}

/// What an export shows: its space, whether it has an ascribed type, how many references, and the PATHs of its own.
fn export_feature(rows: &[Row]) -> [u32; 4] {
    let operands = rows[1..].iter().take_while(|row| !matches!(row.code, FIELD | CLOSE));
    let references: Vec<&Row> = operands.filter(|row| row.code == REF).collect();
    let paths = references.last().map_or(0, |own| own.y.min(2));
    [40 + paths, u32::from(rows[1].b), u32::from(rows[0].e), references.len() as u32]
}

/// What one row shows, which stands in this kind of scope and belongs to this field.
fn feature(answer: &Answer, at: u32, row: Row, kind: u32, field: u32) -> Option<[u32; 4]> {
    let code = u32::from(row.code);
    match answer {
        Answer::Accepted(_) if row.code == FIELD => Some([0, kind, field, u32::from(row.e)]),
        Answer::Accepted(_) if row.code == REF => Some([20, field, u32::from(row.b), row.y.min(2)]),
        Answer::Refused { number: number @ (4 | 5), place } if *place == at => Some([*number, field, code, 0]),
        Answer::Refused { number: number @ 6.., place } if *place == row.z => Some([*number, kind, field, code]),
        _ => None,
    }
}
