//! Written numbers that insertions have moved: `wnt_moved` and `wnt_moved_with` beside a reading of the rows of the input and
//! of the output.

use crate::cases;
use crate::chance::Chance;
use crate::compare::{Case, Comparison, after};
use crate::damage::damage_as;
use crate::lent::{self, Lender, Lengths, Needs};
use crate::library;
use crate::rows::{Answer, CLOSE, DECL, FIELD, FIRST, FIRST_INSERTED, OPEN, OUTER, PATH, REF, Row, Version};
use crate::vectors::{FILLED, Function, Lent, Sample, Vector, said};
use std::collections::BTreeSet;

/// A scope: its name, the scope around it, and the DECL rows of each space in order.
pub struct Scope {
    name: u32,
    around: Option<usize>,
    pub declares: [Vec<usize>; 13],
}

/// The scopes of a form in the order in which they open, and of each row its scope.
pub struct Scopes {
    pub all: Vec<Scope>,
    pub of_row: Vec<usize>,
}

impl Scopes {
    pub fn of(form: &[Row]) -> Scopes {
        let (mut all, mut of_row, mut open) = (Vec::<Scope>::new(), Vec::new(), Vec::new());
        for (at, row) in form.iter().enumerate() {
            if row.code == OPEN {
                all.push(Scope { name: row.x, around: open.last().copied(), declares: Default::default() });
                open.push(all.len() - 1);
            }
            let here = *open.last().expect("a row in a scope");
            if row.code == DECL {
                all[here].declares[row.b as usize].push(at);
            }
            of_row.push(here);
            if row.code == CLOSE {
                open.pop();
            }
        }
        Scopes { all, of_row }
    }

    /// The scope that is as far out as a number says, or the innermost of a name.
    pub fn outer(&self, scope: usize, row: &Row) -> Option<usize> {
        let around = std::iter::successors(Some(scope), |s| self.all[*s].around);
        if row.e & 1 == 1 {
            around.into_iter().find(|s| self.all[*s].name == row.x)
        } else {
            around.into_iter().nth(row.x as usize)
        }
    }
}

/// The rows of a form at their places: inserted fields and PATH rows are left out.
pub fn places(form: &[Row]) -> Vec<usize> {
    let mut kept = Vec::new();
    let mut inserted = false;
    for (at, row) in form.iter().enumerate() {
        match row.code {
            FIELD => inserted = form.get(at + 1).is_some_and(|d| d.code == DECL && d.x >= FIRST_INSERTED),
            OPEN | CLOSE => inserted = false,
            _ => {}
        }
        if !inserted && row.code != PATH {
            kept.push(at);
        }
    }
    kept
}

/// The written number of a row: the scope in which it counts, its space, and the number.
fn written(scopes: &Scopes, row: &Row, here: usize) -> Option<(usize, u8, u32)> {
    match row.code {
        REF if row.e == 0 && row.y == 0 => Some((here, row.b, row.x)),
        REF if row.e == 0 => Some((here, if row.b <= 6 { 6 } else { 10 }, row.x)),
        OUTER if row.e & 2 == 0 => scopes.outer(here, row).map(|scope| (scope, row.b, row.y)),
        _ => None,
    }
}

/// The entries of both lists, and of which kinds they are.
#[derive(Default)]
struct Lists {
    moved: Vec<[u32; 4]>,
    apart: Vec<[u32; 3]>,
    kinds: BTreeSet<String>,
}

impl Lists {
    /// Those of an input and its output, by their rows.
    fn of(form: &[Row], out: &[Row]) -> Lists {
        let (before, after) = (Scopes::of(form), Scopes::of(out));
        let (kept, kept_out) = (places(form), places(out));
        let place = |kept: &[usize], row: usize| kept.iter().position(|k| *k == row);
        let mut lists = Lists::default();
        for (at, row) in form.iter().enumerate() {
            let Some((scope, space, number)) = written(&before, row, before.of_row[at]) else { continue };
            let meant = before.all[scope].declares[space as usize].get(number as usize);
            let Some(meant) = meant else {
                lists.apart.push([row.z, u32::from(space), number]);
                lists.kinds.insert(format!("{} apart", operand(row)));
                continue;
            };
            let gets = after.all[scope].declares[space as usize][number as usize];
            if place(&kept, *meant) != place(&kept_out, gets) {
                lists.moved.push([row.z, u32::from(space), *meant as u32, gets as u32]);
                lists.kinds.insert(format!("{} moved", operand(row)));
            } else {
                lists.kinds.insert(format!("{} kept", operand(row)));
            }
        }
        lists
    }
}

/// What a written number is of.
fn operand(row: &Row) -> &'static str {
    match (row.code, row.e, row.y) {
        (OUTER, 0, _) => "outer",
        (OUTER, ..) => "outer of a name",
        (_, _, 0) => "reference",
        _ => "path",
    }
}

/// The form with some of its names written as numbers, in and out of range.
pub fn numbered(form: &[Row], chance: &mut Chance) -> Vec<Row> {
    let percent = chance.pick(&[10, 30, 60, 95]);
    let mut rows = form.to_vec();
    for row in &mut rows {
        let number = if chance.percent(90) { chance.below(6) as u32 } else { chance.next() as u32 };
        if row.code == REF && row.e == 1 && chance.percent(percent) {
            (row.e, row.x) = (0, number);
        }
        if row.code == OUTER && row.e >= 2 && chance.percent(percent) {
            (row.e, row.y) = (row.e & 1, number);
        }
        if row.code == OUTER && row.e == 0 && chance.percent(50) {
            row.x = chance.below(4) as u32;
        }
    }
    rows
}

/// A list's buffer: the entries, zeros up to its share, and what was there.
fn content<const N: usize>(entries: &[[u32; N]], share: usize, length: usize) -> Vec<u8> {
    let mut bytes: Vec<u8> = entries.iter().flatten().flat_map(|word| word.to_le_bytes()).collect();
    bytes.resize(share, 0);
    bytes.resize(length, FILLED);
    bytes
}

/// A form and the lengths of the three buffers, and of the working areas where these are lent.
struct Asked {
    case: Case,
    moved: usize,
    apart: usize,
    areas: Option<Lengths>,
}

/// What must come of it: the answer, the three buffers, and the lists where it is accepted.
struct Wanted {
    answer: u64,
    buffers: [Vec<u8>; 3],
    lists: Option<Lists>,
}

impl Asked {
    /// One for the function that is lent areas, or for the other.
    fn draw(comparison: &Comparison, chance: &mut Chance, lending: bool) -> Asked {
        let version = lent::version(lending, chance);
        let form = numbered(&comparison.form_of(version, chance), chance);
        let longer =
            |chance: &mut Chance, share: usize| share + chance.below(20) - usize::from(chance.percent(3) && share > 0);
        let (moved, apart) = (longer(chance, 16 * form.len()), longer(chance, 12 * form.len()));
        let bytes = if chance.percent(3) { damage_as(version, &form, chance) } else { version.encode(&form) };
        let case = Case::new(bytes, chance);
        Asked { case, moved, apart, areas: lending.then(|| Needs::of(version).lengths(chance)) }
    }

    /// The version that the form is read as.
    fn version(&self) -> Version {
        if self.areas.is_some() { lent::asked_for(&self.case.form) } else { FIRST }
    }

    /// By the second reading, on what the crate makes of the form.
    fn wanted(&self, comparison: &Comparison) -> Wanted {
        let Asked { case, moved, apart, areas } = self;
        let version = self.version();
        let count = version.count(&case.form);
        let enough = areas.is_none_or(|lengths| Needs::of(version).are_met(lengths));
        let room = if enough && *moved >= 16 * count && *apart >= 12 * count { case.out_len } else { 0 };
        let answer = comparison.expected_as(version, &Case { out_len: room, ..case.clone() });
        let out = after(&answer, &case.form, vec![FILLED; case.out_len]);
        let unchanged = [vec![FILLED; *moved], vec![FILLED; *apart]];
        let Answer::Accepted(resolved) = &answer else {
            let [moved, apart] = unchanged;
            return Wanted { answer: answer.packed(), buffers: [out, moved, apart], lists: None };
        };
        let lists = Lists::of(&version.decode(&case.form), resolved);
        let first = content(&lists.moved, 16 * count, *moved);
        let second = content(&lists.apart, 12 * count, *apart);
        let answer = (lists.apart.len() as u64) * 65536 + lists.moved.len() as u64;
        Wanted { answer, buffers: [out, first, second], lists: Some(lists) }
    }
}

/// How often something came up.
#[derive(Default)]
struct Counts {
    accepted: u64,
    short: u64,
    moved: u64,
    apart: u64,
}

impl Counts {
    fn count(&mut self, wanted: &Wanted) {
        self.short += u64::from(wanted.answer == 3 << 32);
        if let Some(lists) = &wanted.lists {
            self.accepted += 1;
            self.moved += lists.moved.len() as u64;
            self.apart += lists.apart.len() as u64;
        }
    }
}

/// One form: what the library answers and writes, held to the second reading. What differs, in words.
fn one(
    comparison: &Comparison,
    chance: &mut Chance,
    counts: &mut Counts,
    lender: Option<&mut Lender>,
) -> Result<(), String> {
    let asked = Asked::draw(comparison, chance, lender.is_some());
    let wanted = asked.wanted(comparison);
    counts.count(&wanted);
    let form = &asked.case.form;
    let mut buffers = wanted.buffers.each_ref().map(|buffer| vec![FILLED; buffer.len()]);
    let [out, moved, apart] = &mut buffers;
    let (got, cleared) = match lender.zip(asked.areas) {
        Some((lender, lengths)) => {
            let call = |areas: &mut library::Areas| library::moved_with(form, out, moved, apart, areas);
            lender.call(Needs::of(asked.version()), lengths, call)
        }
        None => (library::moved(form, out, moved, apart), true),
    };
    if (got, &buffers, cleared) == (wanted.answer, &wanted.buffers, true) {
        return Ok(());
    }
    let rows: Vec<String> = asked.version().decode(form).iter().map(|row| format!("  {row}")).collect();
    let words = format!("answer {got:#x}, wanted {:#x}, areas cleared: {cleared}", wanted.answer);
    Err(format!("{words}\n{}", rows.join("\n")))
}

/// Compares on `forms` forms; the first that differs is printed and ends the run. Where areas are lent the forms are of both
/// versions and rule sets.
pub fn run(comparison: &Comparison, seed: u64, forms: u64, lending: bool) -> bool {
    let mut counts = Counts::default();
    let mut lender = lending.then(Lender::new);
    for number in 0..forms {
        let mut chance = Chance::new(seed.rotate_left(32) ^ number);
        if let Err(words) = one(comparison, &mut chance, &mut counts, lender.as_mut()) {
            println!("form {number} of seed {seed} differs: {words}");
            return false;
        }
    }
    let Counts { accepted, short, moved, apart } = counts;
    println!(
        "{forms} forms, {accepted} accepted, {short} without room; {moved} numbers moved, {apart} without an item: 0 differences"
    );
    true
}

/// How many forms are looked through for vectors, how many rows one has at most and at the limits, and how many there are
/// of each kind.
const LOOKED: u64 = 60_000;
const FEW_ROWS: usize = 24;
const DEEP_ROWS: usize = 140;
const EACH: usize = 5;

/// Vectors of stated forms and of limits, of each refusal, and of each kind of number that is listed or is not.
pub fn vectors(comparison: &Comparison, seed: u64, sample: &mut Sample) {
    let stated = cases::stated().into_iter().map(|stated| stated.rows);
    let deep = cases::limits(FIRST).into_iter().map(|case| FIRST.decode(&case.form));
    for form in stated.chain(deep).filter(|form| form.len() <= DEEP_ROWS) {
        let case = Case::exact(FIRST.encode(&form), &mut Chance::new(seed));
        Asked { case, moved: 16 * form.len(), apart: 12 * form.len(), areas: None }.offer(comparison, sample);
    }
    for number in 0..LOOKED {
        let asked = Asked::draw(comparison, &mut Chance::new(seed.rotate_left(32) ^ number), false);
        let form = &asked.case.form;
        if form.len() <= FIRST.form_size(FEW_ROWS) && Version::of(form) == FIRST {
            asked.offer(comparison, sample);
        }
    }
}

impl Asked {
    fn offer(self, comparison: &Comparison, sample: &mut Sample) {
        let Wanted { answer, buffers, lists } = self.wanted(comparison);
        let vector = Vector {
            function: Function::Moved,
            number: 0,
            answer,
            inputs: vec![self.case.form],
            lent: buffers.iter().map(|buffer| Lent::holding(buffer)).collect(),
        };
        let kinds = lists.map_or_else(|| [said(answer)].into(), |lists| lists.kinds);
        sample.offer(kinds, EACH, &vector);
    }
}
