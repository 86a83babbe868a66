//! The way back: outputs of random inputs must go round, and damaged ones be refused exactly if a search finds no input for them.

use crate::chance::Chance;
use crate::compare::Comparison;
use crate::damage::{damage, damage_as};
use crate::lent::{self, Lender, Needs, asked_for, is_cleared};
use crate::library::{self, Note};
use crate::moved::places;
use crate::rows::{self, DECL, EXPORT, FIELD, FIRST, FIRST_INSERTED, OPEN, OUTER, PATH, REF, Row, SECOND, Version};
use crate::source;
use crate::vectors::{FILLED, Function, Lent, Sample, Vector, said};

/// The sizes of the working areas for version 1, and how much more is lent.
const RESTORED: usize = FIRST.form_size(FIRST.rows);
const AGAIN: usize = FIRST.output_size(FIRST.rows);
const BEHIND: usize = 5;

/// What the areas are filled with, and the output.
const AREA: u8 = 0x5a;
const NOTE: Note = [0x5a5a_5a5a; 2];
const OUT: u8 = 0xa5;

/// The answer to bytes of which no input is.
const NO_INPUT: u64 = 14 << 32;

/// Inputs that are tried at most for one damaged output.
const TRIED: usize = 4_000;

/// What gives the resolved form of an input, if it is accepted.
type Resolver<'r> = &'r mut dyn FnMut(&[u8]) -> Option<Vec<u8>>;

/// The library as a run calls it: by `wnt_unresolve` or, where areas are lent, by `wnt_unresolve_with`.
struct Called {
    lender: Option<Lender>,
    restored: Vec<u8>,
    again: Vec<u8>,
    noted: Vec<Note>,
}

impl Called {
    fn new(lending: bool) -> Called {
        let most = if lending { SECOND } else { FIRST };
        Called {
            lender: lending.then(Lender::new),
            restored: vec![AREA; most.form_size(most.rows) + BEHIND],
            again: vec![AREA; most.output_size(most.rows) + BEHIND],
            noted: vec![NOTE; 4 * most.rows + BEHIND],
        }
    }

    /// The version that a form is read as.
    fn version(&self, form: &[u8]) -> Version {
        if self.lender.is_some() { asked_for(form) } else { FIRST }
    }

    /// The resolved form of an input, if it is accepted.
    fn resolved(&mut self, form: &[u8]) -> Option<Vec<u8>> {
        let version = self.version(form);
        let mut out = vec![0; version.output_size(version.count(form).min(version.rows))];
        let answer = lent::resolve(self.lender.as_mut(), version, form, &mut out);
        if answer >> 32 != 0 {
            return None;
        }
        out.truncate(version.form_size(answer as usize));
        Some(out)
    }

    /// What the library gives for bytes: the answer, and the output, of which so much is lent. The areas, one of which may be
    /// one element short, must come back as the contract says.
    fn unresolved(&mut self, claim: &[u8], room: usize, short: Option<usize>) -> Option<(u64, Vec<u8>)> {
        let version = self.version(claim);
        let sizes = [version.form_size(version.rows), version.output_size(version.rows), 4 * version.rows];
        let mut lengths = sizes.map(|size| size + BEHIND);
        if let Some(one) = short {
            lengths[one] = sizes[one] - 1;
        }
        let mut out = vec![OUT; room];
        let (restored, again) = (&mut self.restored[..lengths[0]], &mut self.again[..lengths[1]]);
        let noted = &mut self.noted[..lengths[2]];
        restored.fill(AREA);
        again.fill(AREA);
        noted.fill(NOTE);
        let (answer, cleared) = match &mut self.lender {
            Some(lender) => {
                let call = |areas: &mut library::Areas| {
                    library::unresolve_with(claim, &mut out, restored, again, noted, areas)
                };
                let (answer, cleared) = lender.call_exactly(Needs::of(version), call);
                (answer, cleared && is_cleared(noted, sizes[2], [0; 2], NOTE))
            }
            None => (library::unresolve(claim, &mut out, restored, again), true),
        };
        let clear = is_cleared(restored, sizes[0], 0, AREA) && is_cleared(again, sizes[1], 0, AREA);
        (cleared && clear).then_some((answer, out))
    }

    /// Whether the answer gives an input that resolves to the claim, and leaves what lies behind it.
    fn goes_round(&mut self, claim: &[u8], answer: u64, out: &[u8]) -> bool {
        let size = self.version(claim).form_size(answer as usize);
        answer >> 32 == 0
            && size <= out.len()
            && out[size..].iter().all(|byte| *byte == OUT)
            && self.resolved(&out[..size]).is_some_and(|again| again == claim)
    }
}

/// The rows with few places and small numbers, so that references and aliases are easily taken for one another.
fn crowded(rows: &mut [Row], chance: &mut Chance) {
    let (places, numbers) = (chance.pick(&[1, 2, 3]), chance.pick(&[2, 3, 5]));
    for row in rows {
        if matches!(row.code, FIELD | DECL | REF | OUTER) {
            row.z = chance.below(places) as u32;
        }
        if row.code == REF && row.e == 0 {
            row.x = chance.below(numbers) as u32;
        }
    }
}

// ---- an input found by trying

/// A field of a claim: where its rows begin and end, without the scope that it may hold.
struct Field {
    start: usize,
    end: usize,
    inserted: bool,
}

fn fields(claim: &[Row]) -> Vec<Field> {
    let mut all = Vec::new();
    let mut at = 0;
    while at < claim.len() {
        if claim[at].code != FIELD {
            at += 1;
            continue;
        }
        let mut end = at + 1;
        while end < claim.len() && matches!(claim[end].code, DECL | REF | PATH | OUTER | EXPORT | rows::CASE) {
            end += 1;
        }
        let inserted = claim[at..end].iter().any(|row| row.code == DECL && row.x >= FIRST_INSERTED);
        all.push(Field { start: at, end, inserted });
        at = end;
    }
    all
}

/// The ways to give a list of inserted fields, in order, to references of one field: each reference gets a run of them.
fn divisions(count: usize, references: usize) -> Vec<Vec<usize>> {
    if references == 0 {
        return if count == 0 { vec![Vec::new()] } else { Vec::new() };
    }
    let mut all = Vec::new();
    for first in 0..=count {
        for mut rest in divisions(count - first, references - 1) {
            rest.insert(0, first);
            all.push(rest);
        }
    }
    all
}

/// What a reference may have been that these inserted fields served: a path, or a name of the form.
fn served(reference: Row, run: &[Vec<Row>], names: &[u32]) -> Vec<Vec<Row>> {
    let Some(first) = run.first() else { return vec![vec![reference]] };
    if first.iter().any(|row| row.code == OUTER) {
        let named = |name: &u32| vec![Row { e: 1, x: *name, y: 0, ..reference }];
        return if run.len() == 1 { names.iter().map(named).collect() } else { Vec::new() };
    }
    let exports: Vec<Row> = run.iter().flatten().filter(|row| row.code == EXPORT).copied().collect();
    let Some(base) = first.iter().find(|row| row.code == REF) else { return Vec::new() };
    let mut path = vec![Row { e: 0, x: base.x, y: exports.len() as u32, ..reference }];
    path.extend(exports.iter().map(|row| Row::new(PATH, 0, 0, row.x, 0, 0)));
    vec![path]
}

/// The rows that one field of the input may have had, where these inserted fields stand before it.
fn versions(field: &[Row], waiting: &[Vec<Row>], names: &[u32]) -> Vec<Vec<Row>> {
    let references = field.iter().filter(|row| row.code == REF).count();
    let mut all = Vec::new();
    for division in divisions(waiting.len(), references) {
        let mut partial = vec![Vec::new()];
        let (mut next, mut taken) = (0, 0);
        for row in field {
            let choices = if row.code == REF {
                let run = &waiting[taken..taken + division[next]];
                taken += division[next];
                next += 1;
                served(*row, run, names)
            } else {
                vec![vec![*row]]
            };
            partial = partial
                .iter()
                .flat_map(|before: &Vec<Row>| choices.iter().map(move |rows| [before.clone(), rows.clone()].concat()))
                .collect();
            if partial.len() > TRIED {
                return partial;
            }
        }
        all.extend(partial);
    }
    all
}

/// Whether some input has these rows as its output; none if there are too many to try. Inserted fields are those with a fresh
/// name. A written number can stand for every name that is found in its own scope, so that no more names are tried.
fn has_input(version: Version, claim: &[u8], resolved: Resolver) -> Option<bool> {
    let all = version.decode(claim);
    let mut names: Vec<u32> = all.iter().filter(|row| row.code == DECL).map(|row| row.x).collect();
    names.retain(|name| (1..FIRST_INSERTED).contains(name));
    names.sort_unstable();
    names.dedup();
    let mut inputs: Vec<Vec<Row>> = vec![Vec::new()];
    let mut waiting: Vec<Vec<Row>> = Vec::new();
    let mut at = 0;
    let extend = |inputs: &mut Vec<Vec<Row>>, choices: &[Vec<Row>]| {
        *inputs = inputs
            .iter()
            .flat_map(|before| choices.iter().map(move |rows| [before.clone(), rows.clone()].concat()))
            .collect();
        inputs.len() <= TRIED
    };
    for field in fields(&all) {
        let between = all[at..field.start].to_vec();
        if !between.is_empty() && !waiting.is_empty() {
            return Some(false);
        }
        extend(&mut inputs, &[between]);
        at = field.end;
        let own = all[field.start..field.end].to_vec();
        if field.inserted {
            waiting.push(own);
        } else if !extend(&mut inputs, &versions(&own, &std::mem::take(&mut waiting), &names)) {
            return None;
        }
    }
    if !waiting.is_empty() {
        return Some(false);
    }
    extend(&mut inputs, &[all[at..].to_vec()]);
    Some(inputs.iter().any(|rows| resolved(&version.encode(rows)).is_some_and(|out| out == claim)))
}

// ---- the run

#[derive(Default)]
struct Counts {
    round: u64,
    inserted: u64,
    damaged: u64,
    given: u64,
    searched: u64,
}

/// An output that must go round; whether it did.
fn try_output(called: &mut Called, claim: &[u8], chance: &mut Chance, counts: &mut Counts) -> bool {
    let version = called.version(claim);
    counts.inserted +=
        version.decode(claim).iter().filter(|row| row.code == DECL && row.x >= FIRST_INSERTED).count() as u64;
    let room = version.form_size(version.rows) + chance.below(9);
    let Some((answer, out)) = called.unresolved(claim, room, None) else { return false };
    if !called.goes_round(claim, answer, &out) {
        return false;
    }
    counts.round += 1;
    // one byte too few, or one element of an area
    let short = (called.lender.is_some() && chance.percent(10)).then(|| chance.below(3));
    let room = version.form_size(answer as usize) - usize::from(short.is_none());
    let Some((answer, out)) = called.unresolved(claim, room, short) else { return false };
    answer == 3 << 32 && out.iter().all(|byte| *byte == OUT)
}

/// A damaged output; whether it was refused as it must be.
fn try_damaged(called: &mut Called, claim: &[u8], counts: &mut Counts) -> bool {
    counts.damaged += 1;
    let version = called.version(claim);
    let Some((answer, out)) = called.unresolved(claim, version.form_size(version.rows), None) else { return false };
    let refused = answer == NO_INPUT && out.iter().all(|byte| *byte == OUT);
    if answer == NO_INPUT && version.decode(claim).len() <= 24 {
        let found = has_input(version, claim, &mut |form| called.resolved(form));
        let Some(found) = found else { return refused };
        counts.searched += 1;
        return refused && !found;
    }
    counts.given += u64::from(answer >> 32 == 0);
    refused || called.goes_round(claim, answer, &out)
}

/// Sends this number of outputs there and back, with damaged ones beside them, and prints a summary line; answers whether
/// all was right. Where areas are lent they are of both versions and rule sets.
pub fn run(comparison: &Comparison, seed: u64, outputs: u64, lending: bool) -> bool {
    let (mut counts, mut called) = (Counts::default(), Called::new(lending));
    let mut number = 0;
    while counts.round < outputs {
        let mut chance = Chance::new(seed.rotate_left(17) ^ number);
        let version = lent::version(lending, &mut chance);
        let mut input = match lending {
            true => comparison.form_of(version, &mut chance),
            false => rows::decode(&source::random(&comparison.shapes, seed, number).1.form),
        };
        number += 1;
        if chance.percent(60) {
            crowded(&mut input, &mut chance);
        }
        if input.first().is_none_or(|row| row.code != OPEN) {
            continue;
        }
        let Some(claim) = called.resolved(&version.encode(&input)) else { continue };
        let mut right = try_output(&mut called, &claim, &mut chance, &mut counts);
        let mut spoilt = version.decode(&claim);
        if chance.percent(50) {
            crowded(&mut spoilt, &mut chance);
        }
        right = right && try_damaged(&mut called, &damage_as(version, &spoilt, &mut chance), &mut counts);
        if !right {
            println!("form {} of seed {seed} does not go round, or is refused wrongly", number - 1);
            return false;
        }
    }
    let Counts { round, inserted, damaged, given, searched } = counts;
    println!(
        "{round} outputs with {inserted} inserted fields went round; of {damaged} damaged ones {given} are outputs, and of those \
         refused {searched} were searched for an input: 0 differences"
    );
    true
}

// ---- vectors

/// How many random forms are looked through for vectors, the most rows of one, and how many there are of each kind.
const LOOKED: u64 = 6_000;
const FEW_ROWS: usize = 20;
const EACH: usize = 10;

/// The form with a place of its own for each row that has one, so that one input alone has its output.
fn placed(input: &[Row]) -> Vec<Row> {
    let mut all = input.to_vec();
    for (at, row) in all.iter_mut().enumerate() {
        if matches!(row.code, FIELD | DECL | REF | OUTER) {
            row.z = at as u32;
        }
    }
    all
}

/// The input that is given back for an output, by the input that it was made of, in which no two rows have one place: its own
/// rows with the output's numbers, but for a reference that an inserted field with its place served. Where that is an outer
/// alias the name stays, and a path begins at the number of the first alias's instance.
fn given_back(input: &[Row], output: &[Row]) -> Vec<Row> {
    let own = places(output);
    let inserted: Vec<&Row> = (0..output.len()).filter(|at| !own.contains(at)).map(|at| &output[at]).collect();
    let mut all = Vec::new();
    for (before, now) in places(input).into_iter().zip(own) {
        let row = input[before];
        let served: Vec<&&Row> = inserted.iter().filter(|one| row.code == REF && one.z == row.z).collect();
        if served.is_empty() {
            all.push(output[now]);
        } else if row.y == 0 {
            all.push(row);
        } else {
            let base = served.iter().find(|one| one.code == REF).expect("a path has an alias");
            all.push(Row { e: 0, x: base.x, ..row });
            all.extend(&input[before + 1..before + 1 + row.y as usize]);
        }
    }
    all
}

/// A claim with the lengths of the output and the areas, and the input that is given back where these have room.
#[derive(Clone)]
struct Asked {
    claim: Vec<u8>,
    room: usize,
    areas: [usize; 2],
    input: Option<Vec<u8>>,
}

impl Asked {
    /// The answer, and the bytes that are written.
    fn wanted(&self) -> (u64, &[u8]) {
        let [restored, again] = self.areas;
        match &self.input {
            _ if restored < RESTORED || again < AGAIN => (3 << 32, &[]),
            None => (NO_INPUT, &[]),
            Some(input) if self.room < input.len() => (3 << 32, &[]),
            Some(input) => (rows::decode(input).len() as u64, input),
        }
    }

    fn offer(&self, shows: &[&str], sample: &mut Sample) {
        let (answer, written) = self.wanted();
        let mut out = vec![FILLED; self.room];
        out[..written.len()].copy_from_slice(written);
        let [restored, again] = self.areas;
        let vector = Vector {
            function: Function::Unresolve,
            number: 0,
            answer,
            inputs: vec![self.claim.clone()],
            lent: vec![Lent::holding(&out), Lent::cleared(restored, RESTORED), Lent::cleared(again, AGAIN)],
        };
        sample.offer(shows.iter().map(|shown| format!("{}, {shown}", said(answer))), EACH, &vector);
    }
}

/// What the way back from an output of this input shows.
fn shown(input: &[Row], back: &[Row]) -> Vec<&'static str> {
    let has = |found: fn(&Row) -> bool| back.iter().any(found);
    let mut all = Vec::new();
    if has(|row| row.code == REF && row.e == 1) {
        all.push("a name further out");
    }
    if has(|row| row.code == REF && row.y == 1) {
        all.push("a path");
    }
    if has(|row| row.code == REF && row.y > 1) {
        all.push("a longer path");
    }
    if input == back {
        all.push("the same input");
    }
    all.push("an input");
    all
}

/// Vectors of inputs that are given back, of damaged outputs that none has, and of too little room.
pub fn vectors(comparison: &Comparison, seed: u64, sample: &mut Sample) {
    let exact = [RESTORED, AGAIN];
    for number in 0..LOOKED {
        let mut chance = Chance::new(seed.rotate_left(17) ^ number);
        let input = placed(&rows::decode(&source::random(&comparison.shapes, seed, number).1.form));
        if input.len() > FEW_ROWS {
            continue;
        }
        let Some(claim) = comparison.resolved(&rows::encode(&input)) else { continue };
        let back = given_back(&input, &rows::decode(&claim));
        let bytes = rows::encode(&back);
        let spoilt = damage(&rows::decode(&claim), &mut chance);
        let asked = Asked { claim, room: bytes.len() + chance.below(9), areas: exact, input: Some(bytes.clone()) };
        asked.offer(&shown(&input, &back), sample);
        let none = Asked { claim: spoilt, input: None, ..asked };
        if has_input(FIRST, &none.claim, &mut |form| comparison.resolved(form)) == Some(false) {
            none.offer(&["no input"], sample);
        }
        let asked = Asked { claim: comparison.resolved(&bytes).expect("it goes round"), input: Some(bytes), ..none };
        Asked { room: asked.room.saturating_sub(10), ..asked.clone() }.offer(&["a short output"], sample);
        let less = 1 + chance.below(RESTORED);
        Asked { areas: [RESTORED - less, AGAIN], ..asked.clone() }.offer(&["a short first area"], sample);
        Asked { areas: [RESTORED + 3, AGAIN - less], ..asked.clone() }.offer(&["a short second area"], sample);
        Asked { areas: [RESTORED + 3, AGAIN + 5], ..asked }.offer(&["longer areas"], sample);
    }
}
