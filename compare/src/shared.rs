//! Resolved forms put together row by row from the names of an input that is accepted, with an outer alias for each reference as
//! document 01 has it, or with shared ones as request R-12 has it.

use crate::claims::Reading;
use crate::rows::{DECL, EXPORT, FIELD, FIRST_INSERTED, OUTER, PATH, REF, Row};
use std::collections::BTreeMap;

/// What an operand means: a number as it is written, a DECL row of the input, or an inserted alias.
#[derive(Clone, Copy, PartialEq, Eq, PartialOrd, Ord)]
enum Meant {
    Written(u32),
    Declared(usize),
    Inserted(usize),
}

/// What an alias is of: a declaration `out` scopes out, or what an instance exports.
enum Of {
    Outer { out: u32, decl: usize },
    Export { instance: Meant, export: u32 },
}

/// An inserted field: where it stands, what it declares, the place of its reference.
struct Alias {
    field: usize,
    space: u8,
    z: u32,
    of: Of,
}

/// The aliases in the order of their names, and what each REF row means.
#[derive(Default)]
struct Plan {
    aliases: Vec<Alias>,
    meant: BTreeMap<usize, Meant>,
}

/// The space of the instances that export something of this one, and the code of the alias field.
fn instances(space: u8) -> (u8, u8) {
    if space <= 6 { (6, 10) } else { (10, 9) }
}

impl Plan {
    /// Scope by scope as they open, since all insertions of a scope are made before those of the scopes inside it.
    fn of(input: &Reading, sharing: bool) -> Plan {
        let mut plan = Plan::default();
        for scope in 0..input.scopes.len() {
            let mut reached = BTreeMap::new();
            for (number, field) in input.fields.iter().enumerate().filter(|(_, field)| field.scope == scope) {
                for at in field.rows.clone().filter(|at| input.rows[*at].code == REF) {
                    let meant = plan.reference(input, scope, number, at, sharing.then_some(&mut reached));
                    plan.meant.insert(at, meant);
                }
            }
        }
        plan
    }

    fn insert(&mut self, alias: Alias) -> Meant {
        self.aliases.push(alias);
        Meant::Inserted(self.aliases.len() - 1)
    }

    /// What the reference in a row of a field means, with the aliases that it needs; those at hand are shared.
    fn reference(
        &mut self,
        input: &Reading,
        scope: usize,
        field: usize,
        at: usize,
        at_hand: Option<&mut BTreeMap<(u8, usize), Meant>>,
    ) -> Meant {
        let Row { b: space, e, x, y, z, .. } = input.rows[at];
        let here = |space| match e {
            0 => Meant::Written(x),
            _ => Meant::Declared(input.find(scope, space, x).expect("the input is accepted")),
        };
        if y > 0 {
            let mut meant = here(instances(space).0);
            for number in 1..=y {
                let of = Of::Export { instance: meant, export: input.rows[at + number as usize].x };
                meant = self.insert(Alias { field, space: if number < y { 10 } else { space }, z, of });
            }
            return meant;
        }
        if e == 0 {
            return here(space);
        }
        let around = input.outward(scope);
        let found = around.iter().enumerate().find_map(|(out, scope)| Some((out, input.find(*scope, space, x)?)));
        let (out, decl) = found.expect("the input is accepted");
        if out == 0 {
            return Meant::Declared(decl);
        }
        if let Some(alias) = at_hand.as_ref().and_then(|at_hand| at_hand.get(&(space, decl))) {
            return *alias;
        }
        let alias = self.insert(Alias { field, space, z, of: Of::Outer { out: out as u32, decl } });
        if let Some(at_hand) = at_hand {
            at_hand.insert((space, decl), alias);
        }
        alias
    }

    /// The number of each declaration, counted by space in its scope with the inserted ones.
    fn numbers(&self, input: &Reading) -> BTreeMap<Meant, u32> {
        let (mut counts, mut numbers) = (BTreeMap::<(usize, u8), u32>::new(), BTreeMap::new());
        for (number, field) in input.fields.iter().enumerate() {
            let inserted = self.before(number).map(|(k, alias)| (Meant::Inserted(k), alias.space));
            let own = field.rows.clone().filter(|at| input.rows[*at].code == DECL);
            for (meant, space) in inserted.chain(own.map(|at| (Meant::Declared(at), input.rows[at].b))) {
                let count = counts.entry((field.scope, space)).or_default();
                numbers.insert(meant, *count);
                *count += 1;
            }
        }
        numbers
    }

    /// The aliases before a field.
    fn before(&self, field: usize) -> impl Iterator<Item = (usize, &Alias)> {
        self.aliases.iter().enumerate().filter(move |(_, alias)| alias.field == field)
    }
}

/// The rows of an alias that has this name's number.
fn rows_of(k: usize, alias: &Alias, number: impl Fn(Meant) -> u32) -> Vec<Row> {
    let Alias { space, z, of, .. } = alias;
    let (space, z) = (*space, *z);
    let begins =
        |code| vec![Row::new(FIELD, code, 0, 0, 0, z), Row::new(DECL, space, 0, FIRST_INSERTED + k as u32, 0, z)];
    match of {
        Of::Outer { out, decl } => {
            [begins(11), vec![Row::new(OUTER, space, 0, *out, number(Meant::Declared(*decl)), z)]].concat()
        }
        Of::Export { instance, export } => {
            let (of, code) = instances(space);
            let reference = Row::new(REF, of, 0, number(*instance), 0, z);
            [begins(code), vec![reference, Row::new(EXPORT, 0, 0, *export, 0, 0)]].concat()
        }
    }
}

/// The rows of the resolved form.
pub fn resolved(input: &Reading, sharing: bool) -> Vec<Row> {
    let plan = Plan::of(input, sharing);
    let numbers = plan.numbers(input);
    let number = |meant| if let Meant::Written(number) = meant { number } else { numbers[&meant] };
    let (mut rows, mut scope) = (Vec::new(), 0);
    for (at, row) in input.rows.iter().enumerate() {
        match row.code {
            FIELD => {
                let field = input.fields.iter().position(|field| field.rows.start == at).expect("a field");
                scope = input.fields[field].scope;
                rows.extend(plan.before(field).flat_map(|(k, alias)| rows_of(k, alias, number)));
                rows.push(*row);
            }
            PATH => {}
            REF => rows.push(Row { e: 0, x: number(plan.meant[&at]), y: 0, ..*row }),
            OUTER => rows.push(outer(input, scope, row, number)),
            _ => rows.push(*row),
        }
    }
    rows
}

/// An OUTER row of the input with numbers.
fn outer(input: &Reading, scope: usize, row: &Row, number: impl Fn(Meant) -> u32) -> Row {
    let count = match row.e & 1 {
        0 => row.x,
        _ => input.named(scope, row.x).expect("the input is accepted") as u32,
    };
    let index = match row.e & 2 {
        0 => row.y,
        _ => {
            let around = input.outward(scope)[count as usize];
            number(Meant::Declared(input.find(around, row.b, row.y).expect("the input is accepted")))
        }
    };
    Row { e: 0, x: count, y: index, ..*row }
}
