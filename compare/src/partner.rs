//! A partner's assembler: resolved forms of an input with aliases placed, shared and named by chance, some of them unused.

use crate::chance::Chance;
use crate::claims::Reading;
use crate::rows::{CLOSE, DECL, EXPORT, FIELD, FIRST_INSERTED, OPEN, OUTER, PATH, REF, Row};
use crate::shapes::{FIVE, FOUR, SIX, Spaces};
use std::collections::BTreeMap;

/// A DECL of the claim: that of a row of the input, or that of an alias.
#[derive(Clone, Copy, PartialEq, Eq, PartialOrd, Ord)]
enum Which {
    Own(usize),
    Added(usize),
}

/// A number of the claim: digits, or that of a DECL in the scope where it is one.
#[derive(Clone, Copy, PartialEq, Eq)]
enum Number {
    Digits(u32),
    Of(Which),
}

#[derive(Clone, Copy, PartialEq, Eq)]
enum Target {
    Outer { count: u32, index: Number },
    Export { instance: Number, export: u32 },
}

/// An alias: its scope, what it is, and before which field of the scope it stands.
struct Alias {
    scope: usize,
    space: u8,
    target: Target,
    before: usize,
    name: u32,
    z: u32,
}

/// Where a partner puts aliases.
#[derive(Clone, Copy)]
enum Place {
    Straight,
    First,
    Last,
    Anywhere,
}

pub struct Partner<'r> {
    input: &'r Reading<'r>,
    chance: &'r mut Chance,
    aliases: Vec<Alias>,
    operands: BTreeMap<usize, (Number, Number)>,
    place: Place,
    sharing: usize,
    through: usize,
    next_name: u32,
}

impl<'r> Partner<'r> {
    /// The rows of a claim. `through` is how often, in a hundred, an outer alias goes through another one, which is wrong.
    pub fn claim(input: &'r Reading<'r>, chance: &'r mut Chance, through: usize) -> Vec<Row> {
        let place = chance.pick(&[Place::Straight, Place::First, Place::Last, Place::Anywhere]);
        let sharing = chance.pick(&[0, 50, 100]);
        let next_name = FIRST_INSERTED + chance.pick(&[0, 1, 77, 1 << 30]);
        let (aliases, operands) = (Vec::new(), BTreeMap::new());
        let mut partner = Partner { input, chance, aliases, operands, place, sharing, through, next_name };
        for field in 0..input.fields.len() {
            partner.field(field);
        }
        for _ in 0..partner.chance.pick(&[0, 0, 1, 4]) {
            partner.unused();
        }
        partner.rows()
    }

    /// The fields of a scope before this one.
    fn position(&self, field: usize) -> usize {
        let scope = self.input.fields[field].scope;
        self.input.fields[..field].iter().filter(|other| other.scope == scope).count()
    }

    fn fields_in(&self, scope: usize) -> usize {
        self.input.fields.iter().filter(|field| field.scope == scope).count()
    }

    /// Before which field an alias for this one is put.
    fn placed(&mut self, scope: usize, field: usize) -> usize {
        let last = self.fields_in(scope);
        match self.place {
            Place::Straight => field,
            Place::First => 0,
            Place::Last => last,
            Place::Anywhere => self.chance.below(last + 1),
        }
    }

    fn alias(&mut self, scope: usize, space: u8, target: Target, field: usize) -> Which {
        let same = |alias: &Alias| (alias.scope, alias.space, alias.target) == (scope, space, target);
        let there = self.aliases.iter().position(same);
        if let Some(there) = there.filter(|_| self.chance.percent(self.sharing)) {
            return Which::Added(there);
        }
        let before = self.placed(scope, field);
        let name = self.next_name;
        self.next_name += 1 + self.chance.below(3) as u32;
        let z = self.chance.below(9) as u32;
        self.aliases.push(Alias { scope, space, target, before, name, z });
        Which::Added(self.aliases.len() - 1)
    }

    fn field(&mut self, field: usize) {
        let scope = self.input.fields[field].scope;
        let at = self.position(field);
        for row in self.input.fields[field].rows.clone() {
            let operand = self.input.rows[row];
            let numbers = match operand.code {
                REF => (self.reference(scope, at, row), Number::Digits(0)),
                OUTER => self.outer(scope, operand),
                _ => continue,
            };
            self.operands.insert(row, numbers);
        }
    }

    fn reference(&mut self, scope: usize, field: usize, at: usize) -> Number {
        let row = self.input.rows[at];
        if row.y > 0 {
            return self.path(scope, field, at);
        }
        if row.e == 0 {
            return Number::Digits(row.x);
        }
        let around = self.input.outward(scope);
        let found = around.iter().enumerate().find_map(|(out, s)| Some((out, self.input.find(*s, row.b, row.x)?)));
        let (out, decl) = found.expect("the input is accepted");
        if out == 0 {
            return Number::Of(Which::Own(decl));
        }
        let mut target = Target::Outer { count: out as u32, index: Number::Of(Which::Own(decl)) };
        if out > 1 && self.chance.percent(self.through) {
            // By way of the scope next to it.
            let near = Target::Outer { count: out as u32 - 1, index: Number::Of(Which::Own(decl)) };
            let alias = self.alias(around[1], row.b, near, 0);
            target = Target::Outer { count: 1, index: Number::Of(alias) };
        }
        Number::Of(self.alias(scope, row.b, target, field))
    }

    fn path(&mut self, scope: usize, field: usize, at: usize) -> Number {
        let row = self.input.rows[at];
        let starts = if row.b <= 6 { 6 } else { 10 };
        let mut number = match row.e {
            0 => Number::Digits(row.x),
            _ => Number::Of(Which::Own(self.input.find(scope, starts, row.x).expect("the input is accepted"))),
        };
        let paths = &self.input.rows[at + 1..][..row.y as usize];
        for (k, path) in paths.iter().enumerate() {
            let space = if k + 1 == paths.len() { row.b } else { 10 };
            let target = Target::Export { instance: number, export: path.x };
            number = Number::Of(self.alias(scope, space, target, field));
        }
        number
    }

    fn outer(&self, scope: usize, row: Row) -> (Number, Number) {
        let named = || self.input.named(scope, row.x).expect("the input is accepted") as u32;
        let count = if row.e & 1 == 0 { row.x } else { named() };
        let index = if row.e & 2 == 0 {
            Number::Digits(row.y)
        } else {
            let there = self.input.outward(scope)[count as usize];
            Number::Of(Which::Own(self.input.find(there, row.b, row.y).expect("the input is accepted")))
        };
        (Number::Digits(count), index)
    }

    /// An alias that nothing refers to.
    fn unused(&mut self) {
        let scope = self.chance.below(self.input.scopes.len());
        let pick = |chance: &mut Chance, spaces: Spaces| chance.pick(&spaces.each().collect::<Vec<u8>>());
        let digits = Number::Digits(self.chance.below(5) as u32);
        let export = Target::Export { instance: digits, export: self.chance.below(5) as u32 };
        let (space, target) = match self.chance.below(3) {
            0 => (pick(self.chance, FOUR), Target::Outer { count: self.chance.below(4) as u32, index: digits }),
            1 => (pick(self.chance, FIVE), export),
            _ => (pick(self.chance, SIX), export),
        };
        let field = self.chance.below(self.fields_in(scope) + 1);
        self.alias(scope, space, target, field);
    }

    // ---- the rows

    /// The aliases of a scope before its field of this number.
    fn standing(&self, scope: usize, before: usize) -> impl Iterator<Item = usize> {
        let there = move |at: &usize| (self.aliases[*at].scope, self.aliases[*at].before) == (scope, before);
        (0..self.aliases.len()).filter(there)
    }

    /// The number of each DECL in its scope and space.
    fn numbers(&self) -> BTreeMap<Which, u32> {
        let mut numbers = BTreeMap::new();
        for scope in 0..self.input.scopes.len() {
            let mut next = [0; 13];
            let mut number = |which, space: u8| {
                numbers.insert(which, next[usize::from(space)]);
                next[usize::from(space)] += 1;
            };
            let mut fields = self.input.fields.iter().filter(|field| field.scope == scope);
            for before in 0..=self.fields_in(scope) {
                for alias in self.standing(scope, before) {
                    number(Which::Added(alias), self.aliases[alias].space);
                }
                for at in fields.next().map_or(0..0, |field| field.rows.clone()) {
                    if self.input.rows[at].code == DECL {
                        number(Which::Own(at), self.input.rows[at].b);
                    }
                }
            }
        }
        numbers
    }

    fn rows(&self) -> Vec<Row> {
        let numbers = self.numbers();
        let digits = |number| match number {
            Number::Digits(digits) => digits,
            Number::Of(which) => numbers[&which],
        };
        let mut rows = Vec::new();
        let mut open = Vec::new();
        let (mut scopes, mut fields) = (0..self.input.scopes.len(), vec![0; self.input.scopes.len()]);
        for (at, row) in self.input.rows.iter().enumerate() {
            if row.code == FIELD || row.code == CLOSE {
                let scope: usize = *open.last().expect("an open scope");
                for alias in self.standing(scope, fields[scope]) {
                    rows.extend(alias_rows(&self.aliases[alias], digits));
                }
                fields[scope] += 1;
            }
            match row.code {
                OPEN => open.extend(scopes.next()),
                CLOSE => drop(open.pop()),
                _ => {}
            }
            match (row.code, self.operands.get(&at)) {
                (PATH, _) => {}
                (REF, Some((x, _))) => rows.push(Row { e: 0, x: digits(*x), y: 0, ..*row }),
                (_, Some((x, y))) => rows.push(Row { e: 0, x: digits(*x), y: digits(*y), ..*row }),
                _ => rows.push(*row),
            }
        }
        rows
    }
}

fn alias_rows(alias: &Alias, digits: impl Fn(Number) -> u32) -> Vec<Row> {
    let (space, z) = (alias.space, alias.z);
    let core = space <= 6;
    let (code, operand, export) = match alias.target {
        Target::Outer { count, index } => (11, Row::new(OUTER, space, 0, count, digits(index), z), None),
        Target::Export { instance, export } => {
            let operand = Row::new(REF, if core { 6 } else { 10 }, 0, digits(instance), 0, z);
            (if core { 10 } else { 9 }, operand, Some(Row::new(EXPORT, 0, 0, export, 0, 0)))
        }
    };
    let mut rows = vec![Row::new(FIELD, code, 0, 0, 0, z), Row::new(DECL, space, 0, alias.name, 0, z), operand];
    rows.extend(export);
    rows
}
