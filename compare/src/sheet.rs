//! Binding sheets: `wnt_sheet` and `wnt_sheet_with` beside a reading of the rows of the input and of the output.

use crate::chance::Chance;
use crate::compare::Comparison;
use crate::lent::{self, Lender, Lengths, Needs, is_cleared};
use crate::library;
use crate::moved::{Scopes, numbered, places};
use crate::rows::{DECL, FIELD, FIRST, FIRST_INSERTED, OUTER, REF, Row, Version};
use crate::vectors::{FILLED, Function, Lent, Sample, Vector, said};

/// The bytes of the working area.
fn area(version: Version) -> usize {
    version.output_size(version.rows)
}

/// The field code of an outer alias.
const OUTER_ALIAS: u8 = 11;

/// The DECL row of the output that a REF row of it reaches, through an inserted outer alias.
fn reached(out: &[Row], scopes: &Scopes, at: usize) -> Option<usize> {
    let (row, here) = (&out[at], scopes.of_row[at]);
    let decl = *scopes.all[here].declares[row.b as usize].get(row.x as usize)?;
    let inserted_outer = out[decl].x >= FIRST_INSERTED && out[decl - 1].code == FIELD && out[decl - 1].b == OUTER_ALIAS;
    if !inserted_outer {
        return Some(decl);
    }
    let alias = &out[decl + 1];
    let around = scopes.outer(here, alias)?;
    scopes.all[around].declares[alias.b as usize].get(alias.y as usize).copied()
}

/// The kind and the row of the answer to a slot.
fn answer(form: &[Row], out: &[Row], place: u32, name: u32) -> [u32; 2] {
    let at_place: Vec<usize> = form
        .iter()
        .filter(|row| row.code == REF)
        .enumerate()
        .filter(|(_, row)| row.z == place)
        .map(|(n, _)| n)
        .collect();
    match at_place[..] {
        [] => [2, 0],
        [n] => {
            let at =
                places(out).into_iter().filter(|at| out[*at].code == REF).nth(n).expect("a REF of the input stays");
            match reached(out, &Scopes::of(out), at) {
                Some(decl) if out[decl].x == name => [0, 0],
                Some(decl) => [1, decl as u32],
                None => [1, 0],
            }
        }
        _ => [3, 0],
    }
}

/// The form with places of its own for each reference, but for some that are doubled, and OUTER rows among them.
fn placed(form: &[Row], chance: &mut Chance) -> Vec<Row> {
    let doubled = chance.pick(&[0, 5, 30]);
    let mut rows = form.to_vec();
    let mut last = 0;
    for (at, row) in rows.iter_mut().enumerate() {
        if row.code == REF || row.code == OUTER {
            row.z = if chance.percent(doubled) { last } else { at as u32 };
            last = row.z;
        }
    }
    rows
}

/// A slot: its place one of the form's or any, its name what is reached there, another of the form, or 0.
fn slot(form: &[Row], out: Option<&[Row]>, chance: &mut Chance, nameless: bool) -> [u32; 3] {
    let row = form[chance.below(form.len())];
    let references: Vec<u32> = form.iter().filter(|row| row.code == REF).map(|row| row.z).collect();
    let place = match chance.below(20) {
        0 => chance.below(2000) as u32,
        1 | 2 => row.z,
        _ if references.is_empty() => row.z,
        _ => chance.pick(&references),
    };
    let reaches = out.and_then(|out| {
        let [kind, decl] = answer(form, out, place, 0);
        (kind == 1 && decl != 0).then(|| out[decl as usize].x)
    });
    let declared = form[chance.below(form.len())];
    let name = match (chance.below(10), reaches) {
        (0..=5, Some(name)) => name,
        (6, _) => chance.next() as u32,
        _ if declared.code == DECL => declared.x,
        _ => 1 + chance.below(8) as u32,
    };
    [chance.below(9) as u32, place, if nameless || name != 0 { name } else { 1 }]
}

/// How many slots, and how many bytes more than they have.
fn size(chance: &mut Chance) -> (usize, usize) {
    let slots = match chance.below(100) {
        0 => 200,
        1 => 201,
        _ => chance.below(13),
    };
    (slots, if chance.percent(3) { 1 + chance.below(11) } else { 0 })
}

/// What is given for the resolved form: mostly that, at times another.
fn claimed(form: &[u8], resolved: &[u8], chance: &mut Chance) -> Vec<u8> {
    let mut bytes = resolved.to_vec();
    match chance.below(40) {
        0 if !bytes.is_empty() => {
            let at = chance.below(bytes.len());
            bytes[at] ^= 1 << chance.below(8);
        }
        1 => bytes.truncate(chance.below(bytes.len() + 1)),
        2 => bytes.extend(std::iter::repeat_n(0, 1 + chance.below(32))),
        3 => bytes = form.to_vec(),
        4 => bytes.clear(),
        _ => {}
    }
    bytes
}

/// A form with a sheet, and what is given for its resolved form.
struct Case {
    version: Version,
    form: Vec<Row>,
    /// The bytes of what the crate makes of it, if it accepts it.
    resolved: Option<Vec<u8>>,
    claim: Vec<u8>,
    slots: Vec<[u32; 3]>,
    /// The slots as bytes, at times with some behind them.
    sheet: Vec<u8>,
    /// The bytes that are lent for the answers and for working.
    room: usize,
    work: usize,
    /// The lengths of the other working areas, where these are lent.
    areas: Option<Lengths>,
}

impl Case {
    /// One for the function that is lent more areas, or for the other.
    fn draw(comparison: &Comparison, chance: &mut Chance, lending: bool) -> Case {
        let version = lent::version(lending, chance);
        let mut form = placed(&comparison.form_of(version, chance), chance);
        if chance.percent(50) {
            form = numbered(&form, chance);
        }
        let bytes = version.encode(&form);
        let resolved = comparison.resolved_as(version, &bytes);
        let out = resolved.as_deref().map(|form| version.decode(form));
        let (count, more) = size(chance);
        let nameless = chance.percent(5);
        let slots: Vec<[u32; 3]> = (0..count).map(|_| slot(&form, out.as_deref(), chance, nameless)).collect();
        let mut sheet: Vec<u8> = slots.iter().flatten().flat_map(|word| word.to_le_bytes()).collect();
        sheet.extend(std::iter::repeat_n(1, more));
        let claim = claimed(&bytes, resolved.as_deref().unwrap_or(&[]), chance);
        let room = (8 * count + chance.below(20)).saturating_sub(if chance.percent(5) { 20 } else { 0 });
        let work = if chance.percent(3) { chance.below(area(version)) } else { area(version) + chance.below(9) };
        let areas = lending.then(|| Needs::of(version).lengths(chance));
        Case { version, form, resolved, claim, slots, sheet, room, work, areas }
    }

    /// Whether all working areas are large enough.
    fn can_work(&self) -> bool {
        self.work >= area(self.version) && self.areas.is_none_or(|areas| Needs::of(self.version).are_met(areas))
    }

    /// The answer by document 02, and the answers that are written.
    fn wanted(&self) -> (u64, Vec<[u32; 2]>) {
        let count = self.slots.len();
        let whole = self.sheet.len() == 12 * count && count <= 200;
        if !whole || self.slots.iter().any(|[_, _, name]| *name == 0) {
            return (15 << 32, vec![]);
        }
        if !self.can_work() {
            return (3 << 32, vec![]);
        }
        if self.resolved.as_ref() != Some(&self.claim) {
            return (15 << 32, vec![]);
        }
        if self.room < 8 * count {
            return (3 << 32, vec![]);
        }
        let out = self.version.decode(&self.claim);
        let all: Vec<[u32; 2]> =
            self.slots.iter().map(|[_, place, name]| answer(&self.form, &out, *place, *name)).collect();
        (all.iter().filter(|[kind, _]| *kind != 0).count() as u64, all)
    }
}

impl Case {
    /// What a vector of it shows: of a refusal the first reason, else how the slots are answered.
    fn shows(&self, answer: u64, written: &[[u32; 2]]) -> Vec<String> {
        let reason = if self.sheet.len() % 12 != 0 {
            "part of a slot"
        } else if self.slots.len() > 200 {
            "too many slots"
        } else if self.slots.iter().any(|[_, _, name]| *name == 0) {
            "a slot without a name"
        } else if !self.can_work() {
            "too small an area"
        } else if self.resolved.is_none() {
            "a form that is refused"
        } else if self.resolved.as_ref() != Some(&self.claim) {
            "another resolved form"
        } else {
            "no room for the answers"
        };
        match (answer >> 32, answer) {
            (1.., _) => vec![format!("{}, {reason}", said(answer))],
            (_, 0) => vec![format!("passes, {} slots", self.slots.len().min(2))],
            _ => written.iter().map(|[kind, row]| format!("answer {kind}, row {}", row.min(&1))).collect(),
        }
    }
}

/// What the buffer for the answers then holds.
fn held(written: &[[u32; 2]], room: usize) -> Vec<u8> {
    let mut bytes: Vec<u8> = written.iter().flatten().flat_map(|word| word.to_le_bytes()).collect();
    bytes.resize(room, FILLED);
    bytes
}

/// How often something came up.
#[derive(Default)]
struct Counts {
    answered: u64,
    passed: u64,
    refused: u64,
    short: u64,
    kinds: [u64; 4],
    nothing: u64,
}

impl Counts {
    fn count(&mut self, wanted: u64, written: &[[u32; 2]]) {
        match wanted >> 32 {
            0 => self.answered += 1,
            3 => self.short += 1,
            _ => self.refused += 1,
        }
        self.passed += u64::from(wanted == 0);
        for [kind, row] in written {
            self.kinds[*kind as usize] += 1;
            self.nothing += u64::from(*kind == 1 && *row == 0);
        }
    }
}

/// One form with one sheet: what the library answers and writes, held to the second reading. What differs, in words.
fn one(
    comparison: &Comparison,
    chance: &mut Chance,
    counts: &mut Counts,
    lender: Option<&mut Lender>,
) -> Result<(), String> {
    let case = Case::draw(comparison, chance, lender.is_some());
    let form = case.version.encode(&case.form);
    let (mut answers, mut work) = (vec![FILLED; case.room], vec![FILLED; case.work]);
    let (got, cleared) = match lender.zip(case.areas) {
        Some((lender, lengths)) => {
            let read = library::Sheet { form: &form, resolved: &case.claim, sheet: &case.sheet };
            let call = |areas: &mut library::Areas| library::sheet_with(&read, &mut answers, &mut work, areas);
            lender.call(Needs::of(case.version), lengths, call)
        }
        None => (library::sheet(&form, &case.claim, &case.sheet, &mut answers, &mut work), true),
    };
    let (wanted, written) = case.wanted();
    counts.count(wanted, &written);
    let clean = is_cleared(&work, area(case.version), 0, FILLED);
    if got == wanted && answers == held(&written, case.room) && clean && cleared {
        return Ok(());
    }
    let rows: Vec<String> = case.form.iter().map(|row| format!("  {row}")).collect();
    let words = format!("answer {got:#x}, wanted {wanted:#x}; slots {:?}\nwanted {written:?}", case.slots);
    Err(format!("{words}\n{}", rows.join("\n")))
}

/// Compares on `forms` forms; the first that differs is printed and ends the run. Where more areas are lent the forms are of
/// both versions and rule sets.
pub fn run(comparison: &Comparison, seed: u64, forms: u64, lending: bool) -> bool {
    let mut counts = Counts::default();
    let mut lender = lending.then(Lender::new);
    for number in 0..forms {
        let mut chance = Chance::new(seed.rotate_left(32) ^ number);
        if let Err(words) = one(comparison, &mut chance, &mut counts, lender.as_mut()) {
            println!("form {number} of seed {seed} differs: {words}");
            return false;
        }
    }
    let Counts { answered, passed, refused, short, kinds: [written, elsewhere, none, several], nothing } = counts;
    println!(
        "{forms} forms with a sheet each: {answered} answered, {passed} of them pass; {refused} refused with 15, {short} with 3"
    );
    println!(
        "slots: {written} as written, {elsewhere} elsewhere ({nothing} reach nothing), {none} without a reference, {several} with several"
    );
    println!("0 differences");
    true
}

/// How many forms are looked through for vectors, the most rows and slots of one, and how many there are of each kind.
const LOOKED: u64 = 20_000;
const FEW_ROWS: usize = 20;
const FEW_SLOTS: usize = 12;
const EACH: usize = 8;

/// Vectors of each refusal, and of each combination of answers to slots.
pub fn vectors(comparison: &Comparison, seed: u64, sample: &mut Sample) {
    for number in 0..LOOKED {
        let case = Case::draw(comparison, &mut Chance::new(seed.rotate_left(32) ^ number), false);
        if case.form.len() > FEW_ROWS || case.slots.len() > FEW_SLOTS && case.slots.len() < 200 {
            continue;
        }
        let (answer, written) = case.wanted();
        let vector = Vector {
            function: Function::Sheet,
            number: 0,
            answer,
            inputs: vec![FIRST.encode(&case.form), case.claim.clone(), case.sheet.clone()],
            lent: vec![Lent::holding(&held(&written, case.room)), Lent::cleared(case.work, area(FIRST))],
        };
        sample.offer(case.shows(answer, &written), EACH, &vector);
    }
}
