//! The sweep: every kind of operand in every kind of scope, with its name here, further out and nowhere.
//!
//! A form of the sweep is a component in a component in which a scope of the kind at hand holds one field.

use crate::rows::{CASE, CLOSE, DECL, EXPORT, FIELD, OPEN, OUTER, PATH, REF, Row};
use crate::shapes::{
    COMPONENT, COMPONENT_TYPE, FIELDS, FIVE, FOUR, SIX, Shape, Shapes, Spaces, Want, allowed, values_of_e,
};

/// The name that an operand asks for, and those of the three scopes.
const ASKED: u32 = 5;
const ROOT: u32 = 50;
const MIDDLE: u32 = 51;
const INNER: u32 = 52;

/// Where the name that is asked for is declared.
#[derive(Clone, Copy, Default)]
struct Declared {
    before: bool,
    own: bool,
    after: bool,
    around: bool,
    outermost: bool,
}

const NOWHERE: Declared = Declared { before: false, own: false, after: false, around: false, outermost: false };

const PLACES: [Declared; 8] = [
    NOWHERE,
    Declared { before: true, ..NOWHERE },
    Declared { own: true, ..NOWHERE },
    Declared { after: true, ..NOWHERE },
    Declared { around: true, ..NOWHERE },
    Declared { outermost: true, ..NOWHERE },
    Declared { after: true, around: true, ..NOWHERE },
    Declared { around: true, outermost: true, ..NOWHERE },
];

/// All forms of the sweep.
pub fn forms(shapes: &Shapes) -> Vec<Vec<Row>> {
    let mut forms = Vec::new();
    for kind in 0..4 {
        for field in (1..=FIELDS).filter(|field| allowed(kind, *field)) {
            for e in 0..values_of_e(field) {
                let head = Row::new(FIELD, field, e, 0, 0, 0);
                for wants in written_out(shapes.of(head)) {
                    forms_of_field(kind, head, &wants, &mut forms);
                }
            }
        }
        outers(kind, &mut forms);
    }
    forms
}

/// Every row sequence of a shape in which nothing repeats more than twice, each row of one space.
fn written_out(shape: &Shape) -> Vec<Vec<Want>> {
    match shape {
        Shape::Never => Vec::new(),
        Shape::Done => vec![Vec::new()],
        Shape::One(want) => each_space(*want).into_iter().map(|want| vec![want]).collect(),
        Shape::Then(first, next) => pairs(&written_out(first), &written_out(next)),
        Shape::Any(shapes) => shapes.iter().flat_map(written_out).collect(),
        Shape::Many(shape) => {
            let once = written_out(shape);
            let twice = pairs(&once, &once);
            [vec![Vec::new()], once, twice].concat()
        }
    }
}

fn each_space(want: Want) -> Vec<Want> {
    match want {
        Want::Decl(spaces) => spaces.each().map(|space| Want::Decl(Spaces::one(space))).collect(),
        Want::Ref { spaces, paths } => {
            spaces.each().map(|space| Want::Ref { spaces: Spaces::one(space), paths }).collect()
        }
        other => vec![other],
    }
}

fn pairs(firsts: &[Vec<Want>], nexts: &[Vec<Want>]) -> Vec<Vec<Want>> {
    firsts.iter().flat_map(|first| nexts.iter().map(move |next| [&first[..], next].concat())).collect()
}

fn only(spaces: Spaces) -> u8 {
    spaces.each().next().expect("one space")
}

/// The field with numbers alone, then with a name for each of its references in turn.
fn forms_of_field(kind: u8, head: Row, wants: &[Want], forms: &mut Vec<Vec<Row>>) {
    forms.push(scopes(kind, NOWHERE, 9, field_rows(head, wants, None, false)));
    for (at, want) in wants.iter().enumerate() {
        let Want::Ref { spaces, paths } = want else { continue };
        let space = only(*spaces);
        let most = if !paths {
            0
        } else if space <= 6 {
            1
        } else {
            3
        };
        for count in 0..=most {
            let asked = match (count, space) {
                (0, space) => space,
                (_, 0..=6) => 6,
                _ => 10,
            };
            for place in PLACES {
                let here = place.before || place.after;
                if asked == 6 && here && kind != COMPONENT {
                    continue;
                }
                let rows = field_rows(head, wants, Some((at, count)), place.own);
                forms.push(scopes(kind, place, asked, rows));
            }
        }
    }
}

/// The rows of a field in which the reference `named.0` is a name with `named.1` PATH rows.
fn field_rows(head: Row, wants: &[Want], named: Option<(usize, u32)>, own: bool) -> Vec<Row> {
    let mut rows = vec![head];
    for (at, want) in wants.iter().enumerate() {
        let asked = named.filter(|(which, _)| *which == at);
        match want {
            Want::Decl(spaces) => {
                let name = if own && at == 0 { ASKED } else { INNER + at as u32 };
                rows.push(Row::new(DECL, only(*spaces), 0, name, 0, 0));
            }
            Want::Ref { spaces, .. } => {
                let (e, x, y) = asked.map_or((0, 3, 0), |(_, paths)| (1, ASKED, paths));
                rows.push(Row::new(REF, only(*spaces), e, x, y, 0));
                rows.extend((0..y).map(|export| Row::new(PATH, 0, 0, 900 + export, 0, 0)));
            }
            Want::Outer(space) => rows.push(Row::new(OUTER, *space, 0, 1, 2, 0)),
            Want::Export => rows.push(Row::new(EXPORT, 0, 0, 800, 0, 0)),
            Want::Case => rows.push(Row::new(CASE, 0, 0, 0, 0, 0)),
            Want::Open(kind) => {
                let name = rows.last().expect("a DECL stands before").x;
                rows.push(Row::new(OPEN, *kind, 0, name, 0, 0));
                rows.push(Row::new(CLOSE, 0, 0, 0, 0, 0));
            }
        }
    }
    rows
}

/// A field that declares the name that is asked for, in this space.
fn declaration(space: u8) -> Vec<Row> {
    let field = match space {
        4 => 4,
        6 => 3,
        _ if FIVE.has(space) => 10,
        _ => 9,
    };
    let mut rows = vec![Row::new(FIELD, field, 0, 0, 0, 0), Row::new(DECL, space, 0, ASKED, 0, 0)];
    if field == 9 || field == 10 {
        let instance = if SIX.has(space) { 10 } else { 6 };
        rows.push(Row::new(REF, instance, 0, 0, 0, 0));
        rows.push(Row::new(EXPORT, 0, 0, 700, 0, 0));
    }
    rows
}

fn opening(kind: u8, name: u32) -> Vec<Row> {
    let (field, space) = [(6, 11), (14, 9), (15, 9), (17, 4)][usize::from(kind)];
    vec![Row::new(FIELD, field, 0, 0, 0, 0), Row::new(DECL, space, 0, name, 0, 0), Row::new(OPEN, kind, 0, name, 0, 0)]
}

/// Three scopes around the field, with the declarations that the place wants; the name also stands in another
/// space here, which must not matter. Each row that has a place gets one of its own.
fn scopes(kind: u8, place: Declared, space: u8, field: Vec<Row>) -> Vec<Row> {
    let declared = |wanted: bool| if wanted { declaration(space) } else { Vec::new() };
    let other = if space == 4 { 9 } else { 4 };
    let middle = if kind == COMPONENT || space == 6 { COMPONENT } else { COMPONENT_TYPE };
    let close = || vec![Row::new(CLOSE, 0, 0, 0, 0, 0)];
    let parts = [
        vec![Row::new(OPEN, COMPONENT, 0, ROOT, 0, 0)],
        declared(place.outermost),
        opening(middle, MIDDLE),
        declared(place.around),
        opening(kind, INNER),
        if place.own { Vec::new() } else { declaration(other) },
        declared(place.before),
        field,
        declared(place.after),
        close(),
        close(),
        close(),
    ];
    let mut rows = parts.concat();
    for (at, row) in rows.iter_mut().enumerate() {
        if matches!(row.code, FIELD | DECL | REF | OUTER | CASE) {
            row.z = 100 + at as u32;
        }
    }
    rows
}

/// Field 11 with every outer (numbers up to one too many, the three scopes, no scope) and every index.
fn outers(kind: u8, forms: &mut Vec<Vec<Row>>) {
    let outer = [(0, 0), (0, 1), (0, 2), (0, 3), (0, u32::MAX), (1, INNER), (1, MIDDLE), (1, ROOT), (1, 77)];
    for space in FOUR.each() {
        for (outer_named, x) in outer {
            for (index_named, y) in [(0, 6), (2, ASKED)] {
                for place in PLACES {
                    let name = if place.own { ASKED } else { 0 };
                    let rows = vec![
                        Row::new(FIELD, 11, 0, 0, 0, 0),
                        Row::new(DECL, space, 0, name, 0, 0),
                        Row::new(OUTER, space, outer_named | index_named, x, y, 0),
                    ];
                    forms.push(scopes(kind, place, space, rows));
                }
            }
        }
    }
}
