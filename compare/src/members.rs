//! Members inside a prelude, against the crate on trees where the member is put into the prelude's root as its last field.

use crate::cases;
use crate::chance::Chance;
use crate::compare::Comparison;
use crate::damage::damage_as;
use crate::lent::{self, Lender, Lengths, Needs, asked_for, is_cleared};
use crate::library::{self, Areas};
use crate::meant::{pair, pair_of};
use crate::recognise::recognise_as;
use crate::rows::{self, Answer, CLOSE, DECL, FIELD, FIRST, OPEN, OUTER, REF, Row, Version, output_size};
use crate::vectors::{FILLED, Function, Lent, Sample, Vector, said};
use std::collections::BTreeMap;

/// The bytes of the working area.
fn work_for(version: Version) -> usize {
    version.output_size(version.rows)
}

/// What is added to the number of a prelude's refusal.
const OF_PRELUDE: u32 = 200;

/// The first name of an insertion.
const FRESH: u32 = 1 << 31;

/// The space of components, and the code of the field that holds one.
const COMPONENT: u8 = 11;
const HOLDS: u8 = 6;

/// Whether a form names a component so, or its root declares one.
fn has_component(form: &[Row], name: u32) -> bool {
    form.iter().any(|r| match r.code {
        DECL | REF => r.b == COMPONENT && r.x == name,
        OUTER => r.b == COMPONENT && r.y == name,
        _ => false,
    })
}

/// The prelude with the member as its last field.
fn joined(prelude: &[Row], member: &[Row]) -> Vec<Row> {
    let mut tree = prelude[..prelude.len() - 1].to_vec();
    tree.push(Row::new(FIELD, HOLDS, 0, 0, 0, 0));
    tree.push(Row::new(DECL, COMPONENT, 0, member[0].x, 0, 0));
    tree.extend_from_slice(member);
    tree.push(Row::new(CLOSE, 0, 0, 0, 0, 0));
    tree
}

/// How many scopes lie one in another at the most.
fn depth(form: &[Row]) -> usize {
    let mut open = 0;
    let mut most = 0;
    for row in form {
        match row.code {
            OPEN => open += 1,
            CLOSE => open -= 1,
            _ => {}
        }
        most = most.max(open);
    }
    most
}

/// The rows of the scope that the last field of a form holds. Insertions are numbered from the first again: `before` of them
/// came before it.
fn last_scope(tree: &[Row], before: u32) -> Vec<Row> {
    let mut open = 0;
    let mut start = 0;
    for (at, row) in tree.iter().enumerate() {
        match row.code {
            OPEN => {
                open += 1;
                if open == 2 {
                    start = at;
                }
            }
            CLOSE => open -= 1,
            _ => {}
        }
    }
    let mut rows = tree[start..tree.len() - 1].to_vec();
    for row in &mut rows {
        if row.code == DECL && row.x >= FRESH {
            row.x -= before;
        }
    }
    rows
}

/// What is expected of a member, both forms of this version. Under rule set 1 the member is the last field of the tree, so that
/// all of the prelude's are earlier.
pub fn expected(comparison: &Comparison, version: Version, prelude: &[Row], member: &[Row], choice: u64) -> Answer {
    match comparison.answer_as(version, prelude, choice) {
        Answer::Refused { number, place } => Answer::refused(OF_PRELUDE + number, place),
        Answer::Panicked => Answer::Panicked,
        Answer::Accepted(resolved) => {
            let inserted = resolved.iter().filter(|r| r.code == DECL && r.x >= FRESH).count() as u32;
            match comparison.answer_as(version, &joined(prelude, member), choice) {
                Answer::Accepted(tree) => Answer::Accepted(last_scope(&tree, inserted)),
                other => other,
            }
        }
    }
}

/// What the output of a member with this number of rows holds after the answer.
pub fn output(version: Version, answer: &Answer, member: usize, old: &[u8]) -> Vec<u8> {
    let size = version.output_size(member);
    let mut out = old.to_vec();
    match answer {
        Answer::Accepted(rows) => {
            let form = version.encode(rows);
            out[..size].fill(0);
            out[..form.len()].copy_from_slice(&form);
        }
        Answer::Refused { number, .. } if (6..OF_PRELUDE).contains(number) => out[..size].fill(0),
        _ => {}
    }
    out
}

/// Bytes to begin with.
pub fn filled(len: usize, chance: &mut Chance) -> Vec<u8> {
    let byte = chance.next() as u8 | 1;
    vec![byte; len]
}

/// Whether the crate can be asked for a member as a field of the prelude: its root's name is no component's there.
fn is_askable(prelude: &[Row], member: &[Row]) -> bool {
    member.first().is_none_or(|root| !has_component(prelude, root.x) && !has_component(member, root.x))
}

/// A member that the crate can be asked for so.
pub fn askable(prelude: &[Row], mut member: Vec<Row>) -> Vec<Row> {
    if !is_askable(prelude, &member) {
        member[0].x = 0;
    }
    member
}

/// Whether both are within the limits of a version.
pub fn are_small(version: Version, prelude: &[Row], member: &[Row]) -> bool {
    let most = version.rows;
    let scopes = version.scopes;
    prelude.len() <= most && member.len() <= most && depth(prelude) <= scopes && depth(member) < scopes
}

/// Resolves this number of members, and prints a summary line; answers whether there was no difference. Where areas are
/// lent the forms are of both versions and rule sets, and some are damaged.
pub fn run(comparison: &Comparison, seed: u64, pairs: u64, lending: bool) -> bool {
    let mut found: BTreeMap<u32, u64> = BTreeMap::new();
    let mut lender = lending.then(Lender::new);
    let (mut tried, mut number) = (0, 0);
    while tried < pairs {
        let mut chance = Chance::new(seed.rotate_left(32) ^ number);
        number += 1;
        let Some(asked) = Asked::drawn(comparison, &mut chance, lending) else { continue };
        let answer = asked.expected(comparison, chance.next());
        if answer == Answer::Panicked {
            continue;
        }
        tried += 1;
        if let Some(words) = asked.differs(&answer, lender.as_mut(), &mut chance) {
            println!("pair {} of seed {seed}: {words}", number - 1);
            asked.print();
            return false;
        }
        *found.entry((answer.packed() >> 32) as u32).or_default() += 1;
    }
    for (refusal, members) in found {
        println!("{members} members: {}", if refusal == 0 { "accepted".into() } else { format!("refusal {refusal}") });
    }
    println!("{pairs} members resolved, 0 differences");
    true
}

/// How many pairs are looked through for vectors, the most rows of a prelude and of a member, and how many there are of
/// each kind.
const LOOKED: u64 = 30_000;
const FEW_ROWS: usize = 30;
const EACH: usize = 4;

/// A prelude and a member, and the lengths of the output and the area, and of the tables where these are lent.
struct Asked {
    prelude: Vec<u8>,
    member: Vec<u8>,
    room: usize,
    work: usize,
    tables: Option<Lengths>,
}

impl Asked {
    /// One for a vector: of version 1 and of few rows, damaged now and then, with enough room and too little.
    fn draw(comparison: &Comparison, chance: &mut Chance) -> Option<Asked> {
        let (prelude, member) = pair(&comparison.shapes, chance);
        let member = askable(&prelude, member);
        if prelude.len() > FEW_ROWS || member.len() > FEW_ROWS {
            return None;
        }
        let enough = output_size(member.len());
        let room = if chance.percent(5) { chance.below(enough) } else { enough + chance.below(9) };
        let size = work_for(FIRST);
        let work = if chance.percent(5) { chance.below(size) } else { size + chance.below(9) };
        let (prelude, member) = (sent(FIRST, &prelude, chance), sent(FIRST, &member, chance));
        Some(Asked { prelude, member, room, work, tables: None })
    }

    /// One for a run, whose forms are within the limits.
    fn drawn(comparison: &Comparison, chance: &mut Chance, lending: bool) -> Option<Asked> {
        let version = lent::version(lending, chance);
        let (prelude, member) = pair_of(version, comparison.shapes_of(version), chance);
        let member = askable(&prelude, member);
        if !are_small(version, &prelude, &member) {
            return None;
        }
        let (enough, size) = (version.output_size(member.len()), work_for(version));
        if !lending {
            let (room, work) = (enough + chance.below(80), size + chance.below(80));
            let (prelude, member) = (version.encode(&prelude), version.encode(&member));
            return Some(Asked { prelude, member, room, work, tables: None });
        }
        let (room, work) = (lent::length(enough, chance), lent::length(size, chance));
        let tables = Some(Needs::inside(version).lengths(chance));
        let (prelude, member) = (sent(version, &prelude, chance), sent(version, &member, chance));
        let can = is_askable(&asked_for(&prelude).decode(&prelude), &asked_for(&member).decode(&member));
        can.then_some(Asked { prelude, member, room, work, tables })
    }

    /// The version that the prelude is read as.
    fn version(&self) -> Version {
        if self.tables.is_some() { asked_for(&self.prelude) } else { FIRST }
    }

    /// What is expected: by the recogniser for refusals 1 to 5 of either form, else by the crate.
    fn expected(&self, comparison: &Comparison, choice: u64) -> Answer {
        let version = self.version();
        let size = work_for(version);
        let met = self.tables.is_none_or(|lengths| Needs::inside(version).are_met(lengths));
        let area = if met && self.work >= size { size } else { 0 };
        let prelude = match recognise_as(version, comparison.shapes_of(version), &self.prelude, area) {
            Ok(prelude) => prelude,
            Err((number, place)) => return Answer::refused(OF_PRELUDE + number, place),
        };
        if let Answer::Refused { number, place } = comparison.answer_as(version, &prelude, choice) {
            return Answer::refused(OF_PRELUDE + number, place);
        }
        inside(comparison, version, &prelude, &self.member, self.room, choice)
    }

    /// What the library does otherwise than this answer wants it, if it does.
    fn differs(&self, answer: &Answer, lender: Option<&mut Lender>, chance: &mut Chance) -> Option<String> {
        let Asked { prelude, member, room, work, tables } = self;
        let (version, old) = (self.version(), filled(*room, chance));
        let (mut out, mut work) = (old.clone(), vec![FILLED; *work]);
        let (packed, cleared) = match lender.zip(*tables) {
            Some((lender, lengths)) => {
                let call = |areas: &mut Areas| library::member_with(prelude, member, &mut out, &mut work, areas);
                lender.call(Needs::inside(version), lengths, call)
            }
            None => (library::member(prelude, member, &mut out, &mut work), true),
        };
        let clear = cleared && is_cleared(&work, work_for(version), 0, FILLED);
        let same = out == output(version, answer, version.count(member), &old);
        let right = packed == answer.packed() && same && clear;
        let words = || format!("{packed:#x}, wanted {:#x}; the output: {same}, the areas: {clear}", answer.packed());
        (!right).then(words)
    }

    fn print(&self) {
        let version = self.version();
        println!("  lengths {} and {}, tables {:?}", self.room, self.work, self.tables);
        version.decode(&self.prelude).iter().for_each(|r| println!("  {r}"));
        println!("  and the member");
        version.decode(&self.member).iter().for_each(|r| println!("  {r}"));
    }
}

/// The bytes of a form, damaged now and then.
fn sent(version: Version, rows: &[Row], chance: &mut Chance) -> Vec<u8> {
    if chance.percent(10) { damage_as(version, rows, chance) } else { version.encode(rows) }
}

/// What is expected of a member's bytes inside an accepted prelude of this version.
pub fn inside(
    comparison: &Comparison,
    version: Version,
    prelude: &[Row],
    member: &[u8],
    room: usize,
    choice: u64,
) -> Answer {
    match recognise_as(version.one_scope_less(), comparison.shapes_of(version), member, room) {
        Ok(member) => expected(comparison, version, prelude, &member, choice),
        Err((number, place)) => Answer::refused(number, place),
    }
}

/// Vectors of each answer, and of preludes and members at the limit of scopes.
pub fn vectors(comparison: &Comparison, seed: u64, sample: &mut Sample) {
    for number in 0..LOOKED {
        if let Some(asked) = Asked::draw(comparison, &mut Chance::new(seed.rotate_left(32) ^ number)) {
            asked.offer(comparison, sample);
        }
    }
    let root = rows::encode(&cases::deep(1)[0]);
    for form in (FIRST.scopes - 1..FIRST.scopes + 2).flat_map(cases::deep) {
        let (deep, room) = (rows::encode(&form), output_size(form.len()));
        let asked = |prelude: &[u8], member: &[u8]| Asked {
            prelude: prelude.to_vec(),
            member: member.to_vec(),
            room,
            work: work_for(FIRST),
            tables: None,
        };
        asked(&root, &deep).offer(comparison, sample);
        asked(&deep, &root).offer(comparison, sample);
    }
}

impl Asked {
    fn offer(self, comparison: &Comparison, sample: &mut Sample) {
        let answer = self.expected(comparison, 0);
        if answer == Answer::Panicked {
            return;
        }
        let Asked { prelude, member, room, work, .. } = self;
        let out = output(FIRST, &answer, rows::decode(&member).len(), &vec![FILLED; room]);
        let aliases = match &answer {
            Answer::Accepted(rows) => rows.iter().filter(|row| row.code == DECL && row.x >= FRESH).count().min(2),
            _ => 0,
        };
        let vector = Vector {
            function: Function::Member,
            number: 0,
            answer: answer.packed(),
            inputs: vec![prelude, member],
            lent: vec![Lent::holding(&out), Lent::cleared(work, work_for(FIRST))],
        };
        sample.offer([format!("{}, {aliases} aliases", said(vector.answer))], EACH, &vector);
    }
}
