//! What a refusal tells besides its number and place, against the rows of the form: the space from the reference that the
//! crate refuses, the first declaration from the input.

use crate::compare::{Case, Comparison};
use crate::library;
use crate::rows::{Answer, CLOSE, DECL, OPEN, OUTER, REF, Row, decode};
use crate::source;
use std::collections::HashMap;

/// The spaces that can be had from further out.
const FOUR: [u8; 4] = [4, 7, 9, 11];

/// What the buffer for it is filled with, to see what is changed.
const FILLING: u32 = 0xa5a5_a5a5;

/// The space in which a reference's name is looked up; of a path that of its instance.
fn asked(row: &Row) -> u8 {
    match (row.y, row.b) {
        (0, space) => space,
        (_, 0..=6) => 6,
        _ => 10,
    }
}

/// The declarations of a name that stands in their scope and space already: their place, and what refusal 6 tells of them.
fn repeated(rows: &[Row]) -> Vec<(u32, [u32; 2])> {
    let mut scopes: Vec<HashMap<(u8, u32), u32>> = Vec::new();
    let mut all = Vec::new();
    for row in rows {
        match row.code {
            OPEN => scopes.push(HashMap::new()),
            CLOSE => drop(scopes.pop()),
            DECL if row.x != 0 => {
                let names = scopes.last_mut().expect("a DECL in a scope");
                match names.get(&(row.b, row.x)) {
                    Some(first) => all.push((row.z, [u32::from(row.b), *first])),
                    None => drop(names.insert((row.b, row.x), row.z)),
                }
            }
            _ => {}
        }
    }
    all
}

/// What can be told with a refusal of that number at that place: one thing, if no two rows have the place.
fn tellable(rows: &[Row], number: u32, place: u32) -> Vec<[u32; 2]> {
    let here = || rows.iter().filter(|row| row.z == place);
    let named = || here().filter(|row| row.code == REF && row.e == 1);
    let mut all: Vec<[u32; 2]> = match number {
        6 => repeated(rows).into_iter().filter(|(z, _)| *z == place).map(|(_, told)| told).collect(),
        8 => named().filter(|row| row.y == 0 && !FOUR.contains(&row.b)).map(|row| [u32::from(row.b), 0]).collect(),
        9 => {
            let indexed = here().filter(|row| row.code == OUTER && row.e & 2 != 0).map(|row| row.b);
            named().map(asked).chain(indexed).map(|space| [u32::from(space), 0]).collect()
        }
        _ => vec![[0, 0]],
    };
    all.sort_unstable();
    all.dedup();
    all
}

/// What is told with an answer to a form, if that is one thing.
pub fn told(form: &[u8], answer: &Answer) -> Option<[u32; 2]> {
    let all = match answer {
        Answer::Refused { number: number @ 6.., place } => tellable(&decode(form), *number, *place),
        _ => vec![[0, 0]],
    };
    (all.len() == 1).then(|| all[0])
}

/// How many forms were told what, and of how many refusals more than one thing could be told.
#[derive(Default)]
struct Tally {
    refused: [u64; 13],
    several: u64,
}

/// Whether the library tells what it must of a case, in a buffer that is longer than needed, and in one that is too short.
fn is_right(comparison: &Comparison, case: &Case, tally: &mut Tally) -> bool {
    let (number, place) = match comparison.expected(case) {
        Answer::Refused { number, place } => (number, place),
        _ => (0, 0),
    };
    let tellable = if number < 6 { vec![[0, 0]] } else { tellable(&decode(&case.form), number, place) };
    tally.refused[number as usize] += 1;
    tally.several += u64::from(tellable.len() > 1);
    let (mut out, mut other) = (case.pattern(), case.pattern());
    let mut told = [FILLING; 3];
    let same = library::resolve_told(&case.form, &mut out, &mut told) == library::resolve(&case.form, &mut other);
    same && out == other && told[2] == FILLING && tellable.contains(&[told[0], told[1]]) && is_short_right(case)
}

/// Whether a buffer for one number is answered as an output of no bytes is, and all stays as it was.
fn is_short_right(case: &Case) -> bool {
    let (mut out, mut told) = (case.pattern(), [FILLING; 1]);
    let answer = library::resolve_told(&case.form, &mut out, &mut told);
    answer == library::resolve(&case.form, &mut []) && out == case.pattern() && told == [FILLING]
}

/// Compares on `forms` forms; answers whether there was no difference.
pub fn run(comparison: &Comparison, seed: u64, forms: u64) -> bool {
    let mut tally = Tally::default();
    let fixed = source::fixed(&comparison.shapes).into_iter();
    let random = (0..).map(|number| source::random(&comparison.shapes, seed, number));
    for (at, (stage, case)) in fixed.chain(random).take(forms as usize).enumerate() {
        if !is_right(comparison, &case, &mut tally) {
            println!("form {at} ({stage:?}) is told otherwise: {:?}", case.form);
            return false;
        }
    }
    let [_, _, _, _, _, _, twice, _, outer, unknown, ..] = tally.refused;
    println!("6: {twice}, 8: {outer}, 9: {unknown}; of {} of them two rows had the place", tally.several);
    println!("{forms} forms compared, 0 differences");
    true
}
