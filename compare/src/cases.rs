//! The runs that document 01 states with their answers (P1 to P10), the smallest forms of docs/DIFFERENCES.md, exports
//! with an ascribed type, and forms on both sides of each limit.

use crate::compare::Case;
use crate::rows::{Answer, CLOSE, DECL, FIELD, OPEN, PATH, REF, Row, Version};

/// A form of document 01 and the answer it states.
pub struct Stated {
    pub name: &'static str,
    pub rows: Vec<Row>,
    pub answer: Answer,
}

type Parts = (u8, u8, u16, u32, u32, u32);

fn rows(parts: &[Parts]) -> Vec<Row> {
    parts.iter().map(|(code, b, e, x, y, z)| Row::new(*code, *b, *e, *x, *y, *z)).collect()
}

const ROOT: Parts = (7, 0, 0, 0, 0, 0);
const END: Parts = (8, 0, 0, 0, 0, 0);

fn accepted(name: &'static str, form: &[Parts], output: &[Parts]) -> Stated {
    Stated { name, rows: rows(form), answer: Answer::Accepted(rows(output)) }
}

fn refused(name: &'static str, form: &[Parts], number: u32, place: u32) -> Stated {
    Stated { name, rows: rows(form), answer: Answer::refused(number, place) }
}

/// P1 to P10, a form for each named difference, and exports with an ascribed type.
pub fn stated() -> Vec<Stated> {
    let mut cases = vec![p1(), p9(), written_number_stays(), heap_type_is_a_type()];
    cases.extend(scopes_and_outers());
    cases.extend(references());
    cases.extend(ascribed());
    cases
}

fn p1() -> Stated {
    let front =
        [ROOT, (1, 12, 0, 0, 0, 0), (2, 9, 0, 1, 0, 0), (1, 6, 0, 0, 0, 0), (2, 11, 0, 2, 0, 0), (7, 0, 0, 2, 0, 0)];
    let field = [(1, 12, 0, 0, 0, 0), (2, 9, 0, 3, 0, 0)];
    let alias = [(1, 11, 0, 0, 0, 70), (2, 9, 0, 2_147_483_648, 0, 70), (5, 9, 0, 1, 0, 70)];
    let form = [&front[..], &field, &[(3, 9, 1, 1, 0, 70), END, END]].concat();
    let output = [&front[..], &alias, &field, &[(3, 9, 0, 0, 0, 70), END, END]].concat();
    accepted("P1", &form, &output)
}

fn scopes_and_outers() -> Vec<Stated> {
    let outer = |e: u16, x: u32, y: u32| [ROOT, (1, 11, 0, 0, 0, 20), (2, 9, 0, 1, 0, 21), (5, 9, e, x, y, 22), END];
    vec![
        accepted("P2", &[ROOT, END], &[ROOT, END]),
        refused("P3", &outer(2, 1, 1), 11, 20),
        accepted("P4", &outer(2, 0, 1), &outer(0, 0, 0)),
        accepted("P5", &outer(0, 7, 7), &outer(0, 7, 7)),
    ]
}

fn references() -> Vec<Stated> {
    let inner = [(1, 6, 0, 0, 0, 0), (2, 11, 0, 0, 0, 0), ROOT];
    let func = [(1, 9, 0, 0, 0, 0), (2, 8, 0, 1, 0, 0), (3, 10, 0, 0, 0, 0), (9, 0, 0, 4, 0, 0)];
    let lower = [(1, 19, 0, 0, 0, 0), (2, 0, 0, 0, 0, 0), (3, 8, 1, 1, 0, 30), END, END];
    let instance = [(1, 8, 0, 0, 0, 0), (2, 10, 0, 1, 0, 0)];
    let export = [(1, 22, 0, 0, 0, 0), (2, 9, 0, 0, 0, 0), (3, 9, 1, 1, 1, 31), (4, 0, 0, 5, 0, 0), END, END];
    let argument =
        [(1, 2, 0, 0, 0, 0), (2, 6, 0, 1, 0, 0), (3, 7, 0, 0, 0, 0), (3, 6, 1, 1, 1, 32), (4, 0, 0, 5, 0, 0), END];
    let later = |e: u16, x: u32| {
        [
            ROOT,
            (1, 12, 0, 0, 0, 0),
            (2, 9, 0, 1, 0, 0),
            (3, 9, e, x, 0, 33),
            (1, 12, 0, 0, 0, 0),
            (2, 9, 0, 2, 0, 0),
            END,
        ]
    };
    vec![
        refused("P6", &[&[ROOT][..], &func, &inner, &lower].concat(), 8, 30),
        refused("P7", &[&[ROOT][..], &instance, &inner, &export].concat(), 9, 31),
        refused("P8", &[&[ROOT][..], &argument].concat(), 7, 32),
        accepted("P10", &later(1, 2), &later(0, 1)),
    ]
}

fn p9() -> Stated {
    let front = [ROOT, (1, 12, 0, 0, 0, 0), (2, 9, 0, 1, 0, 0), (1, 6, 0, 0, 0, 0), (2, 11, 0, 0, 0, 0), ROOT];
    let field = [(1, 12, 0, 0, 0, 0), (2, 9, 0, 0, 0, 0)];
    let alias = |k: u32, z: u32| [(1, 11, 0, 0, 0, z), (2, 9, 0, 2_147_483_648 + k, 0, z), (5, 9, 0, 1, 0, z)];
    let form = [&front[..], &field, &[(3, 9, 1, 1, 0, 40), (3, 9, 1, 1, 0, 41), END, END]].concat();
    let output =
        [&front[..], &alias(0, 40), &alias(1, 41), &field, &[(3, 9, 0, 0, 0, 40), (3, 9, 0, 1, 0, 41), END, END]];
    accepted("P9", &form, &output.concat())
}

/// The number 0 at place 71 is copied, though an alias has taken that number.
fn written_number_stays() -> Stated {
    let front = [ROOT, (1, 12, 0, 0, 0, 0), (2, 9, 0, 1, 0, 0), (1, 6, 0, 0, 0, 0), (2, 11, 0, 0, 0, 0), ROOT];
    let named = [(1, 12, 0, 0, 0, 0), (2, 9, 0, 3, 0, 0)];
    let alias = [(1, 11, 0, 0, 0, 70), (2, 9, 0, 2_147_483_648, 0, 70), (5, 9, 0, 1, 0, 70)];
    let numbered = [(1, 12, 0, 0, 0, 0), (2, 9, 0, 4, 0, 0), (3, 9, 0, 0, 0, 71), END, END];
    let form = [&front[..], &named, &[(3, 9, 1, 1, 0, 70)], &numbered].concat();
    let output = [&front[..], &alias, &named, &[(3, 9, 0, 0, 0, 70)], &numbered].concat();
    accepted("a written number stays", &form, &output)
}

/// A resource whose representation names a core type: it is not among the types.
fn heap_type_is_a_type() -> Stated {
    let core_type = [ROOT, (1, 4, 0, 0, 0, 0), (2, 4, 0, 2, 0, 0)];
    let resource = [(1, 16, 0, 0, 0, 0), (2, 9, 0, 1, 0, 0), (3, 9, 1, 2, 0, 9), END];
    refused("heap types are looked up among the types", &[&core_type[..], &resource].concat(), 9, 9)
}

/// The rows of an export with an ascribed type, without its operands.
fn typed_export(space: u8) -> [Parts; 2] {
    [(1, 22, 1, 0, 0, 50), (2, space, 0, 0, 0, 51)]
}

/// The ascribed type comes first: where both references are unknown, and where aliases are inserted for both. Of an
/// exported type a lone reference is the export's own, with PATHs or without; a value may have a type without one too.
fn ascribed() -> Vec<Stated> {
    let named = |space: u8, z: u32| (3, space, 1, 1, 0, z);
    let unknown = [&[ROOT][..], &typed_export(8), &[named(9, 52), named(8, 53), END]].concat();
    let a_type = [(1, 12, 0, 0, 0, 0), (2, 9, 0, 1, 0, 0)];
    let own_unknown = [&[ROOT][..], &a_type, &typed_export(12), &[named(9, 52), named(12, 53), END]].concat();
    let a_value = [ROOT, (1, 20, 0, 0, 0, 0), (2, 12, 0, 1, 0, 0), (3, 8, 0, 0, 0, 0)];
    vec![
        refused("the ascribed type is looked up first", &unknown, 9, 52),
        refused("then the export's own reference", &own_unknown, 9, 53),
        accepted(
            "a value with a type without an operand",
            &[&a_value[..], &typed_export(12), &[named(12, 52), END]].concat(),
            &[&a_value[..], &typed_export(12), &[(3, 12, 0, 0, 0, 52), END]].concat(),
        ),
        lone_reference(),
        aliases_of_both(),
    ]
}

fn lone_reference() -> Stated {
    let front = [ROOT, (1, 8, 0, 0, 0, 0), (2, 10, 0, 1, 0, 0)];
    let alias = [(1, 9, 0, 0, 0, 52), (2, 9, 0, 2_147_483_648, 0, 52), (3, 10, 0, 0, 0, 52), (9, 0, 0, 5, 0, 0)];
    let form = [&front[..], &typed_export(9), &[(3, 9, 1, 1, 1, 52), (4, 0, 0, 5, 0, 0), END]].concat();
    let output = [&front[..], &alias, &typed_export(9), &[(3, 9, 0, 0, 0, 52), END]].concat();
    accepted("a lone reference is the export's own", &form, &output)
}

fn aliases_of_both() -> Stated {
    let front = [ROOT, (1, 12, 0, 0, 0, 0), (2, 9, 0, 1, 0, 0), (1, 6, 0, 0, 0, 0), (2, 11, 0, 0, 0, 0), ROOT];
    let alias = |k: u32, z: u32| [(1, 11, 0, 0, 0, z), (2, 9, 0, 2_147_483_648 + k, 0, z), (5, 9, 0, 1, 0, z)];
    let form = [&front[..], &typed_export(9), &[(3, 9, 1, 1, 0, 52), (3, 9, 1, 1, 0, 53), END, END]].concat();
    let both = [(3, 9, 0, 0, 0, 52), (3, 9, 0, 1, 0, 53), END, END];
    let output = [&front[..], &alias(0, 52), &alias(1, 53), &typed_export(9), &both].concat();
    accepted("aliases for the ascribed type stand first", &form, &output)
}

/// Exports with an ascribed type that end too early, have one reference too many or one that may not stand there;
/// and e above 1.
fn broken_exports(version: Version) -> Vec<Case> {
    let to = |space: u8| (3, space, 0, 0, 0, 52);
    let (by_path, path) = ((3, 9, 0, 0, 1, 52), (4, 0, 0, 5, 0, 0));
    let operands: [(u8, &[Parts]); 9] = [
        (9, &[]),
        (9, &[to(9), to(9), to(9)]),
        (9, &[by_path, path, to(9)]),
        (9, &[to(12)]),
        (12, &[to(9)]),
        (12, &[by_path, path, to(12)]),
        (12, &[to(12), to(9)]),
        (8, &[to(8)]),
        (7, &[to(9), to(7)]),
    ];
    let mut forms: Vec<Vec<Parts>> = Vec::new();
    for (space, operands) in operands {
        forms.push([&[ROOT][..], &typed_export(space), operands, &[END]].concat());
    }
    forms.extend([2, 3, 48, 256].map(|e| vec![ROOT, (1, 22, e, 0, 0, 50), (2, 8, 0, 0, 0, 51), to(8), END]));
    forms.iter().map(|form| exact(version, rows(form))).collect()
}

/// Forms of a version at and beyond each limit.
pub fn limits(version: Version) -> Vec<Case> {
    let (most, deepest) = (version.rows, version.scopes);
    let mut forms: Vec<Vec<Row>> = [1, 2, most - 1, most, most + 1, 65_535].map(padded).to_vec();
    for depth in [1, 2, deepest - 1, deepest, deepest + 1, deepest + 2] {
        forms.extend(deep(depth));
    }
    let mut spoilt = nested(deepest + 1, COMPONENT_FIELD);
    spoilt[3 * deepest].x = 9;
    forms.push(spoilt);
    for paths in [1, 100, most as u32 - 7] {
        forms.push(long_path(paths, paths));
        forms.push(long_path(paths, paths + 1));
        forms.push(long_path(paths, u32::MAX));
    }
    let mut cases: Vec<Case> = forms.into_iter().map(|rows| exact(version, rows)).collect();
    cases.extend(short_outputs(version, nested(4, COMPONENT_FIELD)));
    cases.extend(headers(version));
    cases.extend(broken_exports(version));
    cases
}

fn exact(version: Version, rows: Vec<Row>) -> Case {
    let out_len = version.output_size(rows.len());
    Case { out_len, form: version.encode(&rows), fill: 0x5a5a_a5a5_0f0f_f0f1, choice: 1 }
}

/// A component of this many rows, as far as rows allow: two for the scope, the others empty fields.
fn padded(count: usize) -> Vec<Row> {
    let mut rows = vec![Row::new(OPEN, 0, 0, 0, 0, 0)];
    rows.resize(count.max(2) - 1, Row::new(FIELD, 25, 0, 0, 0, 7));
    rows.push(Row::new(CLOSE, 0, 0, 0, 0, 0));
    rows.truncate(count);
    rows
}

/// The field, its space and the scope it opens, with which scopes are nested.
type Opener = (u8, u8, u8);
const COMPONENT_FIELD: Opener = (6, 11, 0);
const TYPE_FIELD: Opener = (14, 9, 1);

/// Scopes of both kinds, `depth` of them one inside another.
pub fn deep(depth: usize) -> [Vec<Row>; 2] {
    [COMPONENT_FIELD, TYPE_FIELD].map(|opener| nested(depth, opener))
}

fn nested(depth: usize, (field, space, kind): Opener) -> Vec<Row> {
    let mut rows = vec![Row::new(OPEN, 0, 0, 0, 0, 0)];
    for scope in 1..depth as u32 {
        rows.push(Row::new(FIELD, field, 0, 0, 0, scope));
        rows.push(Row::new(DECL, space, 0, scope, 0, scope));
        rows.push(Row::new(OPEN, kind, 0, scope, 0, 0));
    }
    rows.resize(rows.len() + depth, Row::new(CLOSE, 0, 0, 0, 0, 0));
    rows
}

/// One reference with this many PATH rows that states another count of them.
fn long_path(paths: u32, stated: u32) -> Vec<Row> {
    let mut rows = rows(&[ROOT, (1, 8, 0, 0, 0, 1), (2, 10, 0, 1, 0, 2), (1, 22, 0, 0, 0, 3), (2, 10, 0, 0, 0, 4)]);
    rows.push(Row::new(REF, 10, 1, 1, stated, 5));
    rows.extend((0..paths).map(|export| Row::new(PATH, 0, 0, export, 0, 0)));
    rows.push(Row::new(CLOSE, 0, 0, 0, 0, 0));
    rows
}

fn short_outputs(version: Version, rows: Vec<Row>) -> Vec<Case> {
    let enough = exact(version, rows);
    let lengths = [0, 1, 7, 8, enough.out_len / 4, enough.out_len - 1, enough.out_len, enough.out_len + 1];
    lengths.into_iter().map(|out_len| Case { out_len, ..enough.clone() }).collect()
}

/// Every front part of a small form, one with every header byte changed, and ones with bytes behind.
fn headers(version: Version) -> Vec<Case> {
    let whole = exact(version, nested(2, COMPONENT_FIELD));
    let fronts = (0..whole.form.len()).map(|length| whole.form[..length].to_vec());
    let changed = (0..version.header).flat_map(|at| {
        let form = &whole.form;
        [1, 0x80].map(|bits| {
            let mut bytes = form.clone();
            bytes[at] ^= bits;
            bytes
        })
    });
    let longer = [1, 16].map(|more| [&whole.form[..], &vec![0; more]].concat());
    fronts.chain(changed).chain(longer).map(|form| Case { form, ..whole.clone() }).collect()
}
