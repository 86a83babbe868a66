//! Which declaration a member's name means, against a reading of documents 01 and 02 on scopes that hold their
//! declarations.

use crate::chance::Chance;
use crate::generate;
use crate::library;
use crate::newer;
use crate::rows::{self, CLOSE, DECL, EXPORT, FIELD, FIRST, HEADER, NEWER, OPEN, OUTER, REF, Row, Version};
use crate::shapes::Shapes;
use crate::vectors::{Function, Sample, Vector};
use std::collections::BTreeMap;

/// A scope: its name, the scope around it, and what it declares, in order.
struct Scope {
    name: u32,
    around: Option<usize>,
    declares: Vec<(u8, u32, usize)>,
}

impl Scope {
    /// The row that declares a name first.
    fn row(&self, space: u8, name: u32) -> Option<usize> {
        let named = |(s, n, _): &&(u8, u32, usize)| (*s, *n) == (space, name);
        self.declares.iter().find(named).map(|(_, _, row)| *row)
    }
}

/// The scopes of a form, the root first; and of each row its scope and the code of its field.
struct Scopes {
    all: Vec<Scope>,
    rows: Vec<(usize, u8)>,
}

impl Scopes {
    fn of(form: &[Row]) -> Scopes {
        let mut scopes = Scopes { all: Vec::new(), rows: Vec::new() };
        let (mut here, mut field) = (None, 0);
        for (at, row) in form.iter().enumerate() {
            match row.code {
                OPEN => {
                    scopes.all.push(Scope { name: row.x, around: here, declares: Vec::new() });
                    here = Some(scopes.all.len() - 1);
                }
                FIELD => field = row.b,
                DECL => scopes.all[here.expect("a DECL in a scope")].declares.push((row.b, row.x, at)),
                _ => {}
            }
            scopes.rows.push((here.unwrap_or(0), field));
            if row.code == CLOSE {
                here = here.and_then(|scope| scopes.all[scope].around);
            }
        }
        scopes
    }

    /// A scope and those around it.
    fn outward(&self, scope: usize) -> Vec<&Scope> {
        std::iter::successors(Some(&self.all[scope]), |s| s.around.map(|a| &self.all[a])).collect()
    }
}

/// In which form a declaration stands, as `wnt_meant` numbers them, and its row.
type Declared = Option<(u64, usize)>;

/// Behind the scopes of the member lies the prelude's root; `at` is one of all these.
fn in_scope(around: &[&Scope], root: &Scope, at: usize, space: u8, name: u32) -> Declared {
    match around.get(at) {
        Some(scope) => scope.row(space, name).map(|row| (1, row)),
        None if at == around.len() => root.row(space, name).map(|row| (2, row)),
        None => None,
    }
}

/// What the name in a row of the member means.
fn meant(member: &[Row], scopes: &Scopes, root: &Scope, at: usize) -> Declared {
    let row = member.get(at)?;
    let (scope, field) = scopes.rows[at];
    let around = scopes.outward(scope);
    match row.code {
        REF if row.e == 1 && row.y > 0 => in_scope(&around, root, 0, if row.b <= 6 { 6 } else { 10 }, row.x),
        REF if row.e == 1 && matches!(field, 4 | 5 | 24) => in_scope(&around, root, 0, row.b, row.x),
        REF if row.e == 1 => (0..=around.len()).find_map(|out| in_scope(&around, root, out, row.b, row.x)),
        OUTER if row.e >= 2 => {
            let named = |out: &usize| around.get(*out).map_or(root.name, |scope| scope.name) == row.x;
            let out = if row.e == 3 { (0..=around.len()).find(named)? } else { row.x as usize };
            in_scope(&around, root, out, row.b, row.y)
        }
        _ => None,
    }
}

/// The form without some of its names. A field that opens a scope keeps its name, which its OPEN repeats.
fn lacking(form: &[Row], percent: usize, chance: &mut Chance) -> Vec<Row> {
    let mut field = 0;
    let mut rows = form.to_vec();
    for row in &mut rows {
        match row.code {
            FIELD => field = row.b,
            DECL if !matches!(field, 6 | 14 | 15 | 17) && chance.percent(percent) => row.x = 0,
            _ => {}
        }
    }
    rows
}

/// The rows of a field that declares a name in a space.
fn field(space: u8, name: u32) -> Vec<Row> {
    let decl = Row::new(DECL, space, 0, name, 0, 0);
    let head = |code, e| Row::new(FIELD, code, e, 0, 0, 0);
    let number = |space| Row::new(REF, space, 0, 0, 0, 0);
    match space {
        0 => vec![head(19, 6), decl],
        4 => vec![head(4, 0), decl],
        6 => vec![head(3, 0), decl],
        7 => vec![head(1, 0), decl],
        8 => vec![head(21, 0), decl, number(9)],
        9 => vec![head(12, 0), decl],
        10 => vec![head(8, 0), decl],
        11 => vec![head(6, 0), decl, Row::new(OPEN, 0, 0, name, 0, 0), Row::new(CLOSE, 0, 0, 0, 0, 0)],
        12 => vec![head(21, 0), decl],
        _ => vec![head(10, 0), decl, number(6), Row::new(EXPORT, 0, 0, 1, 0, 0)],
    }
}

/// The names in the references of a form, each with its space.
fn names_in(form: &[Row]) -> Vec<(u8, u32)> {
    let name = |row: &Row| match row.code {
        REF if row.e == 1 => Some((row.b, row.x)),
        OUTER if row.e >= 2 => Some((row.b, row.y)),
        _ => None,
    };
    form.iter().filter_map(name).collect()
}

/// The bytes of a form of either version.
fn bytes(form: &[Row], version: u64) -> Vec<u8> {
    let mut bytes = rows::encode(form);
    if version == 2 {
        bytes[3] = 2;
        bytes.splice(HEADER..HEADER, [0; 8]);
    }
    bytes
}

/// A prelude and a member. The member lacks some of its declarations, and the prelude's root has some that the member
/// names; some preludes have a name by which the member asks for a scope.
pub fn pair(shapes: &Shapes, chance: &mut Chance) -> (Vec<Row>, Vec<Row>) {
    pair_of(FIRST, shapes, chance)
}

/// The same for this version, with its shapes.
pub fn pair_of(version: Version, shapes: &Shapes, chance: &mut Chance) -> (Vec<Row>, Vec<Row>) {
    let missing = chance.pick(&[0, 20, 50, 90]);
    let mut member = lacking(&generate::form_of(version, shapes, chance.next()), missing, chance);
    let mut prelude = generate::form_of(version, shapes, chance.next());
    let offered = chance.pick(&[0, 10, 50, 90]);
    for (space, name) in names_in(&member) {
        if chance.percent(offered) {
            let at = if chance.percent(50) { 1 } else { prelude.len() - 1 };
            prelude.splice(at..at, field(space, name));
        }
    }
    let asked: Vec<u32> = member.iter().filter(|r| r.code == OUTER && r.e == 3).map(|r| r.x).collect();
    if !asked.is_empty() && chance.percent(50) {
        prelude[0].x = chance.pick(&asked);
    }
    if version == NEWER {
        newer::tame(&mut prelude, chance);
        newer::tame(&mut member, chance);
    }
    (prelude, member)
}

/// Asks for every row of this number of members, and prints a summary line; answers whether there was no difference.
pub fn run(seed: u64, pairs: u64) -> bool {
    let shapes = Shapes::new();
    let mut found: BTreeMap<(u8, u64), u64> = BTreeMap::new();
    for number in 0..pairs {
        let mut chance = Chance::new(seed.rotate_left(32) ^ number);
        let (prelude, member) = pair(&shapes, &mut chance);
        let (scopes, outer) = (Scopes::of(&member), Scopes::of(&prelude));
        let version = 1 + chance.next() % 2;
        let (outside, inside) = (bytes(&prelude, version), bytes(&member, version));
        for row in (0..member.len() + 2).chain([65535, 65536, u32::MAX as usize]) {
            let expected = meant(&member, &scopes, &outer.all[0], row);
            let packed = expected.map_or(0, |(form, at)| (form << 32) + at as u64);
            let answer = library::meant(&outside, &inside, row as u32);
            if answer != packed {
                println!("pair {number} of seed {seed}, row {row}: {answer:#x} and not {packed:#x}");
                prelude.iter().for_each(|r| println!("  {r}"));
                println!("  and the member");
                member.iter().for_each(|r| println!("  {r}"));
                return false;
            }
            let code = member.get(row).map_or(0, |r| r.code);
            if code == REF || code == OUTER {
                *found.entry((code, packed >> 32)).or_default() += 1;
            }
        }
    }
    for ((code, form), rows) in found {
        let code = if code == REF { "REF" } else { "OUTER" };
        println!("{rows} {code} rows: {}", ["nothing", "of the member", "of the prelude"][form as usize]);
    }
    println!("{pairs} pairs asked, 0 differences");
    true
}

/// How many pairs are looked through for vectors, the most rows of either form, and how many there are of each kind.
const LOOKED: u64 = 3_000;
const FEW_ROWS: usize = 20;
const EACH: usize = 4;

/// Vectors of what names of references and outer aliases mean, and of rows that have none.
pub fn vectors(seed: u64, sample: &mut Sample) {
    let shapes = Shapes::new();
    for number in 0..LOOKED {
        let mut chance = Chance::new(seed.rotate_left(32) ^ number);
        let (prelude, member) = pair(&shapes, &mut chance);
        if prelude.len() > FEW_ROWS || member.len() > FEW_ROWS {
            continue;
        }
        let (scopes, outer) = (Scopes::of(&member), Scopes::of(&prelude));
        let version = 1 + chance.next() % 2;
        for row in (0..member.len() + 1).chain([65535, 65536, u32::MAX as usize]) {
            let declared = meant(&member, &scopes, &outer.all[0], row);
            let answer = declared.map_or(0, |(form, at)| (form << 32) + at as u64);
            let kind = match member.get(row) {
                Some(row) if row.code == REF => format!("REF, e {}", row.e),
                Some(row) if row.code == OUTER => format!("OUTER, e {}", row.e),
                Some(_) => "no reference".to_string(),
                None => "no row".to_string(),
            };
            let vector = Vector {
                function: Function::Meant,
                number: row as u32,
                answer,
                inputs: vec![bytes(&prelude, version), bytes(&member, version)],
                lent: Vec::new(),
            };
            let of = ["nothing", "of the member", "of the prelude"][(answer >> 32) as usize];
            sample.offer([format!("version {version}, {kind}: {of}")], EACH, &vector);
        }
    }
}
