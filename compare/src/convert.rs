//! `wnt_convert` beside a second converter, which is written after the text of the request and shares no code with it.

use crate::chance::Chance;
use crate::damage::damage_as;
use crate::generate;
use crate::library;
use crate::recognise::{Refusal, read_within, sized};
use crate::rows::{FIRST, NEWER, ROW, Row, SECOND, Version};
use crate::shapes::Shapes;
use crate::source;
use crate::vectors::{FILLED, Function, Lent, Sample, Vector, said};
use std::time::Instant;

/// The rule sets by their number: the second has heap types in the core type space.
struct Rules {
    shapes: [Shapes; 2],
}

/// The form as one of the version of this number, for an output of this length.
fn converted(rules: &Rules, form: &[u8], number: u32, out_len: usize) -> Result<Vec<u8>, Refusal> {
    let from = header_of(form).ok_or((1, 0))?;
    let to = [FIRST, SECOND].into_iter().find(|to| u32::from(to.number) == number).ok_or((1, 0))?;
    let count = sized(from, form)?;
    if out_len < to.form_size(count) {
        return Err((3, 0));
    }
    let (rows, shapes) = (from.decode(form), &rules.shapes[usize::from(from.rules)]);
    read_within(shapes, &rows, from.scopes)?;
    if to == FIRST && from.rules != 0 {
        return Err((1, 0));
    }
    if count > to.rows {
        return Err((2, 0));
    }
    read_within(shapes, &rows, to.scopes)?;
    Ok([Version { rules: from.rules, ..to }.head(count), form[from.header..].to_vec()].concat())
}

/// The version that a header is of.
fn header_of(form: &[u8]) -> Option<Version> {
    [FIRST, SECOND, NEWER].into_iter().find(|version| version.begins(form))
}

/// A form, the version that is asked for, and the output's length.
struct Asked {
    form: Vec<u8>,
    version: u32,
    out_len: usize,
}

/// The random form of this number: of either version and rule set, some damaged, with enough room and too little.
fn random(rules: &Rules, seed: u64, number: u64) -> Asked {
    let mut chance = Chance::new(seed.rotate_left(32) ^ number);
    let from = chance.pick(&[FIRST, SECOND, SECOND]);
    let set = usize::from(from == SECOND && chance.percent(25));
    let mut rows = generate::form_of(from, &rules.shapes[set], chance.next());
    if chance.percent(3) {
        lengthen(&mut rows, &mut chance);
    }
    let mut form = if chance.percent(25) { damage_as(from, &rows, &mut chance) } else { from.encode(&rows) };
    if set == 1 && form.len() > 5 {
        form[5] = 1;
    }
    let version = match chance.below(20) {
        0 => chance.pick(&[0, 3, 256, 65_537, u32::MAX]),
        at => 1 + (at as u32) % 2,
    };
    let enough = if version == 1 { FIRST.form_size(rows.len()) } else { SECOND.form_size(rows.len()) };
    let out_len = match chance.below(20) {
        0 => enough - 1,
        1 => chance.below(enough),
        2..=8 => enough,
        _ => enough + chance.below(40),
    };
    Asked { form, version, out_len }
}

/// Puts empty fields into the root, up to a limit of either version or one row beyond.
fn lengthen(rows: &mut Vec<Row>, chance: &mut Chance) {
    let most = chance.pick(&[FIRST.rows, FIRST.rows + 1, SECOND.rows, SECOND.rows + 1]);
    let field = Row::new(crate::rows::FIELD, 25, 0, 0, 0, 0);
    let more = most.saturating_sub(rows.len());
    rows.splice(1..1, std::iter::repeat_n(field, more));
}

/// The answer of the second converter, and what the output then holds.
fn wanted(rules: &Rules, asked: &Asked) -> (Result<usize, Refusal>, Vec<u8>) {
    let Asked { form, version, out_len } = asked;
    let mut out = vec![FILLED; *out_len];
    let answer = converted(rules, form, *version, *out_len).map(|bytes| {
        out[..bytes.len()].copy_from_slice(&bytes);
        (bytes.len() - if *version == 1 { FIRST.header } else { SECOND.header }) / ROW
    });
    (answer, out)
}

/// An answer as the library packs it.
fn packed(answer: Result<usize, Refusal>) -> u64 {
    match answer {
        Ok(rows) => rows as u64,
        Err((number, place)) => (u64::from(number) << 32) | u64::from(place),
    }
}

/// Whether the library's answer and output are those of the second converter.
fn is_right(rules: &Rules, asked: &Asked) -> (Result<usize, Refusal>, bool) {
    let (answer, wanted) = wanted(rules, asked);
    let mut out = vec![FILLED; asked.out_len];
    let right = library::convert(&asked.form, asked.version, &mut out) == packed(answer) && out == wanted;
    (answer, right)
}

/// The forms of each version's limits, to either version.
fn fixed(rules: &Rules) -> Vec<Asked> {
    let mut all = Vec::new();
    for from in [FIRST, SECOND] {
        for (_, case) in source::fixed_of(from, &rules.shapes[0]) {
            for version in [1, 2] {
                all.push(Asked { form: case.form.clone(), version, out_len: case.form.len() + 8 });
            }
        }
    }
    all
}

/// Compares `count` conversions, the fixed ones first, and prints a summary; answers whether there was no difference.
pub fn run(seed: u64, count: u64) -> bool {
    let start = Instant::now();
    let rules = Rules { shapes: [Shapes::new(), Shapes::newer()] };
    let mut done = [0u64; 6];
    let forms = fixed(&rules).into_iter().chain((0..).map(|number| random(&rules, seed, number)));
    for (number, asked) in forms.take(count as usize).enumerate() {
        let (answer, right) = is_right(&rules, &asked);
        done[answer.map_or_else(|(number, _)| number as usize, |_| 0)] += 1;
        if !right {
            let Asked { form, version, out_len } = asked;
            println!("form {number} to version {version} differs, output of {out_len}; expected {answer:?}\n{form:?}");
            return false;
        }
    }
    let refusals: Vec<String> = (1..6).map(|number| format!("{number}: {}", done[number])).collect();
    println!("converted {}, refused {}", done[0], refusals.join(", "));
    println!("{count} forms converted in {:.1} s, 0 differences", start.elapsed().as_secs_f64());
    true
}

/// How many random forms are looked through for vectors, how long one is and at the limits of version 1 may be, and how
/// many there are of each kind.
const LOOKED: u64 = 3_000;
const SHORT: usize = 400;
const LONG: usize = 16 + 16 * 1025;
const EACH: usize = 5;

/// Vectors of each answer from either version and rule set to either version and to none.
pub fn vectors(seed: u64, sample: &mut Sample) {
    let rules = Rules { shapes: [Shapes::new(), Shapes::newer()] };
    let random = (0..LOOKED).map(|number| random(&rules, seed, number));
    let small = |asked: &Asked| asked.form.len() <= LONG && asked.out_len <= LONG;
    for asked in random.chain(fixed(&rules)).filter(small) {
        let (answer, out) = wanted(&rules, &asked);
        let limit = asked.form.len() > SHORT;
        if limit && !matches!(answer, Err((2 | 5, _))) {
            continue;
        }
        let from = header_of(&asked.form).map_or("none".to_string(), |from| format!("{}.{}", from.number, from.rules));
        let to = if asked.version > 2 { 0 } else { asked.version };
        let vector = Vector {
            function: Function::Convert,
            number: asked.version,
            answer: packed(answer),
            inputs: vec![asked.form],
            lent: vec![Lent::holding(&out)],
        };
        let at = if limit { " at a limit" } else { "" };
        sample.offer([format!("{from} to {to}, {}{at}", said(vector.answer))], if limit { 1 } else { EACH }, &vector);
    }
}
