//! A claimed output of an input: yes, or no with the condition and the row, by the text of request R-4. Rows are put into
//! fields and scopes first, and the conditions are then read off these.

use crate::compare::{Case, Comparison};
use crate::recognise;
use crate::rows::{Answer, CASE, CLOSE, DECL, EXPORT, FIELD, FIRST_INSERTED, OPEN, OUTER, PATH, REF, Row, Version};
use crate::shapes::Shapes;
use std::collections::{BTreeMap, BTreeSet};
use std::ops::Range;

#[derive(Clone, Copy, Debug, PartialEq, Eq)]
pub enum Verdict {
    Yes,
    No { condition: u32, row: usize },
    Refused { number: u32, place: u32 },
}

impl Verdict {
    /// The number that `wnt_check` returns for it.
    pub fn packed(self) -> u64 {
        match self {
            Verdict::Yes => 0,
            Verdict::No { condition, row } => (u64::from(100 + condition) << 32) | row as u64,
            Verdict::Refused { number, place } => (u64::from(number) << 32) | u64::from(place),
        }
    }
}

// ---- fields and scopes

/// A field: its scope, its rows before a scope that it opens, and whether it has a DECL with a name from 2147483648 up.
pub struct Field {
    pub scope: usize,
    pub rows: Range<usize>,
    added: bool,
}

/// A scope: its name, the field that opens it, which the root does not have, and the rows of its DECLs.
pub struct Scope {
    name: u32,
    field: Option<usize>,
    pub decls: Vec<usize>,
}

/// The rows of a form with what they belong to; of an OPEN and a CLOSE that is the field that opens the scope.
pub struct Reading<'r> {
    pub rows: &'r [Row],
    pub scopes: Vec<Scope>,
    pub fields: Vec<Field>,
    owners: Vec<Option<usize>>,
}

impl<'r> Reading<'r> {
    /// The rows must be those of a form.
    pub fn of(rows: &'r [Row]) -> Reading<'r> {
        let mut reading = Reading { rows, scopes: Vec::new(), fields: Vec::new(), owners: Vec::new() };
        let mut open: Vec<usize> = Vec::new();
        for (at, row) in rows.iter().enumerate() {
            match row.code {
                OPEN => {
                    let field = reading.fields.len().checked_sub(1);
                    open.push(reading.scopes.len());
                    reading.scopes.push(Scope { name: row.x, field, decls: Vec::new() });
                    reading.owners.push(field);
                }
                CLOSE => {
                    let closed = open.pop().expect("an open scope");
                    reading.owners.push(reading.scopes[closed].field);
                }
                _ => reading.part(at, *row, *open.last().expect("an open scope")),
            }
        }
        reading
    }

    /// A row of a field.
    fn part(&mut self, at: usize, row: Row, scope: usize) {
        if row.code == FIELD {
            self.fields.push(Field { scope, rows: at..at, added: false });
        }
        let field = self.fields.last_mut().expect("a field");
        field.rows.end = at + 1;
        if row.code == DECL {
            field.added |= row.x >= FIRST_INSERTED;
            self.scopes[scope].decls.push(at);
        }
        self.owners.push(Some(self.fields.len() - 1));
    }

    /// Whether the row belongs to an added field, all that a scope in one holds included.
    fn is_added(&self, row: usize) -> bool {
        let outward = |field: &usize| self.scopes[self.fields[*field].scope].field;
        std::iter::successors(self.owners[row], outward).any(|field| self.fields[field].added)
    }

    /// A scope and those around it.
    pub fn outward(&self, scope: usize) -> Vec<usize> {
        let around = |scope: &usize| self.scopes[*scope].field.map(|field| self.fields[field].scope);
        std::iter::successors(Some(scope), around).collect()
    }

    /// The DECL of a name in a scope.
    pub fn find(&self, scope: usize, space: u8, name: u32) -> Option<usize> {
        let is_it = |at: &&usize| (self.rows[**at].b, self.rows[**at].x) == (space, name);
        self.scopes[scope].decls.iter().find(is_it).copied()
    }

    /// The scope that a named outer means, counted from this one.
    pub fn named(&self, scope: usize, name: u32) -> Option<usize> {
        self.outward(scope).iter().position(|at| self.scopes[*at].name == name)
    }

    /// The DECLs of a space in a scope, in the order of their numbers.
    fn of_space(&self, scope: usize, space: u8) -> impl Iterator<Item = usize> {
        self.scopes[scope].decls.iter().copied().filter(move |at| self.rows[*at].b == space)
    }

    /// The rows of the added field that a number of a space reaches in its scope.
    fn alias(&self, scope: usize, space: u8, number: u32) -> Option<&'r [Row]> {
        let decl = self.of_space(scope, space).nth(number as usize)?;
        let field = &self.fields[self.owners[decl]?];
        field.added.then(|| &self.rows[field.rows.clone()])
    }
}

// ---- the conditions

/// Condition 1: the rows of the claim, held to the input's version with four times the rows.
fn rows_of(version: Version, shapes: &Shapes, claim: &[u8]) -> Result<Vec<Row>, usize> {
    let claimed = Version { rows: 4 * version.rows, ..version };
    if !claimed.begins(claim) {
        return Err(0);
    }
    recognise::sized(claimed, claim).map_err(|(_, place)| place as usize)?;
    let rows = claimed.decode(claim);
    let read = recognise::read_within(shapes, &with_low_names(&rows), claimed.scopes);
    read.map(|()| rows).map_err(|(_, row)| row as usize)
}

/// The rows with other names, all below 2147483648 and as different as they were.
fn with_low_names(rows: &[Row]) -> Vec<Row> {
    let mut names: BTreeMap<u32, u32> = BTreeMap::from([(0, 0)]);
    let mut low = |name: u32| {
        let next = names.len() as u32;
        *names.entry(name).or_insert(next)
    };
    let mut rows = rows.to_vec();
    for row in &mut rows {
        let (x_is_name, y_is_name) = match row.code {
            DECL | OPEN | CASE => (true, false),
            REF => (row.e == 1, false),
            OUTER => (row.e & 1 == 1, row.e & 2 == 2),
            _ => (false, false),
        };
        if x_is_name {
            row.x = low(row.x);
        }
        if y_is_name {
            row.y = low(row.y);
        }
    }
    rows
}

/// Condition 2.
fn not_the_inputs(input: &Reading, claim: &Reading) -> Option<usize> {
    let mut left = input.rows.iter().filter(|row| row.code != PATH);
    let breaks = |at: &usize| {
        let row = claim.rows[*at];
        let mut differs = || left.next().is_none_or(|was| lasting(*was) != lasting(row));
        row.code == PATH || (!claim.is_added(*at) && differs())
    };
    let row = (0..claim.rows.len()).find(breaks);
    row.or_else(|| left.next().map(|_| claim.rows.len()))
}

/// A row without e, x and y of REF and OUTER.
fn lasting(row: Row) -> Row {
    match row.code {
        REF | OUTER => Row { e: 0, x: 0, y: 0, ..row },
        _ => row,
    }
}

/// Condition 3.
fn no_alias(claim: &Reading) -> Option<usize> {
    let mut names = BTreeSet::new();
    let mut breaks = |field: &Field, at: usize| {
        let row = claim.rows[at];
        match row.code {
            FIELD => !(9..=11).contains(&row.b),
            DECL => !names.insert((field.scope, row.b, row.x)),
            REF | OUTER => row.e != 0,
            _ => false,
        }
    };
    let added = claim.fields.iter().filter(|field| field.added);
    added
        .flat_map(|field| field.rows.clone().map(move |at| (field, at)))
        .find(|(f, at)| breaks(f, *at))
        .map(|(_, at)| at)
}

/// Condition 4, of a claim that 2 and 3 passed.
struct Operands<'r> {
    input: &'r Reading<'r>,
    claim: &'r Reading<'r>,
    /// Of each DECL of the input its number in the claim.
    numbers: BTreeMap<usize, u32>,
}

impl<'r> Operands<'r> {
    fn new(input: &'r Reading<'r>, claim: &'r Reading<'r>) -> Operands<'r> {
        let own = |at: &usize| claim.rows[*at].code == DECL && !claim.is_added(*at);
        let decls = (0..claim.rows.len()).filter(own);
        let were = (0..input.rows.len()).filter(|at| input.rows[*at].code == DECL);
        let number = |at: usize| {
            let scope = claim.fields[claim.owners[at].expect("a field")].scope;
            claim.of_space(scope, claim.rows[at].b).position(|other| other == at).expect("it is there") as u32
        };
        let numbers = were.zip(decls.map(number)).collect();
        Operands { input, claim, numbers }
    }

    /// The first operand that is wrong.
    fn wrong(&self) -> Option<usize> {
        let own = self.claim.fields.iter().filter(|field| !field.added);
        let each = own.zip(&self.input.fields).flat_map(|(now, was)| {
            let were = was.rows.clone().filter(|at| self.input.rows[*at].code != PATH);
            now.rows.clone().zip(were).map(move |(at, before)| (now, was, at, before))
        });
        let is_wrong = |(now, was, at, before): &(&Field, &Field, usize, usize)| {
            let row = self.claim.rows[*at];
            let numbers = row.e == 0;
            match row.code {
                REF => !(numbers && self.is_right(now.scope, was.scope, *before, row.x)),
                OUTER => !(numbers && self.outer(was.scope, *before) == Some((row.x, row.y))),
                _ => false,
            }
        };
        each.into_iter().find(is_wrong).map(|(_, _, at, _)| at)
    }

    /// The number in the claim of a name that the scope of the input declares.
    fn here(&self, scope: usize, space: u8, name: u32) -> Option<u32> {
        self.input.find(scope, space, name).map(|decl| self.numbers[&decl])
    }

    /// Whether a number stands for the reference in this row of the input; `now` and `was` are its scope.
    fn is_right(&self, now: usize, was: usize, before: usize, number: u32) -> bool {
        let row = self.input.rows[before];
        if row.y > 0 {
            return self.reaches(now, was, before, number);
        }
        if row.e == 0 {
            return number == row.x;
        }
        if let Some(here) = self.here(was, row.b, row.x) {
            return number == here;
        }
        let around = self.input.outward(was);
        let found = (1..around.len()).find_map(|out| Some((out as u32, self.here(around[out], row.b, row.x)?)));
        let Some(alias) = self.claim.alias(now, row.b, number) else { return false };
        let outer = alias.iter().find(|part| part.code == OUTER);
        alias[0].b == 11 && outer.map(|part| (part.x, part.y)) == found
    }

    /// Whether a number reaches, through an added alias for each PATH, the instance that the path starts from.
    fn reaches(&self, now: usize, was: usize, before: usize, number: u32) -> bool {
        let row = self.input.rows[before];
        let paths = &self.input.rows[before + 1..][..row.y as usize];
        let (mut space, mut number) = (row.b, number);
        for path in paths.iter().rev() {
            let Some(alias) = self.claim.alias(now, space, number) else { return false };
            let part = |code| alias.iter().find(|part| part.code == code);
            let (Some(instance), Some(export)) = (part(REF), part(EXPORT)) else { return false };
            if alias[0].b != (if space <= 6 { 10 } else { 9 }) || export.x != path.x {
                return false;
            }
            (space, number) = (if space <= 6 { 6 } else { 10 }, instance.x);
        }
        Some(number) == if row.e == 0 { Some(row.x) } else { self.here(was, space, row.x) }
    }

    /// The numbers of an OUTER of the input.
    fn outer(&self, was: usize, before: usize) -> Option<(u32, u32)> {
        let row = self.input.rows[before];
        let count = if row.e & 1 == 0 { row.x } else { self.input.named(was, row.x)? as u32 };
        if row.e & 2 == 0 {
            return Some((count, row.y));
        }
        let scope = *self.input.outward(was).get(count as usize)?;
        Some((count, self.here(scope, row.b, row.y)?))
    }
}

/// The four conditions in their order, of an input that is accepted.
fn conditions(version: Version, shapes: &Shapes, input: &[Row], claim: &[u8]) -> Verdict {
    let rows = match rows_of(version, shapes, claim) {
        Ok(rows) => rows,
        Err(row) => return Verdict::No { condition: 1, row },
    };
    let (input, claim) = (Reading::of(input), Reading::of(&rows));
    let second = || not_the_inputs(&input, &claim).map(|row| (2, row));
    let third = || no_alias(&claim).map(|row| (3, row));
    let fourth = || Operands::new(&input, &claim).wrong().map(|row| (4, row));
    match second().or_else(third).or_else(fourth) {
        Some((condition, row)) => Verdict::No { condition, row },
        None => Verdict::Yes,
    }
}

/// The verdict on a claim, where the input is read as one of this version.
pub fn verdict_as(version: Version, comparison: &Comparison, case: &Case, claim: &[u8]) -> Verdict {
    match comparison.expected_as(version, case) {
        Answer::Accepted(_) => conditions(version, comparison.shapes_of(version), &version.decode(&case.form), claim),
        Answer::Refused { number, place } => Verdict::Refused { number, place },
        Answer::Panicked => panic!("the crate panicked"),
    }
}
