//! The rows that each field of document 01 is made of, as patterns, and which fields each kind of scope allows.

use crate::rows::{CASE, DECL, EXPORT, FIELD, FIRST_INSERTED, OPEN, OUTER, PATH, REF, Row};
use std::rc::Rc;

/// A set of spaces, one bit each.
#[derive(Clone, Copy, Debug, PartialEq, Eq)]
pub struct Spaces(pub u16);

pub const FIVE: Spaces = Spaces(0b10_1111);
pub const SIX: Spaces = Spaces(0b1_1111_1000_0000);
pub const FOUR: Spaces = Spaces(0b1010_1001_0000);

impl Spaces {
    pub fn one(space: u8) -> Spaces {
        Spaces(1 << space)
    }

    pub fn has(self, space: u8) -> bool {
        space < 13 && self.0 & (1 << space) != 0
    }

    pub fn each(self) -> impl Iterator<Item = u8> {
        (0..13).filter(move |space| self.has(*space))
    }
}

/// The kinds of scope, as OPEN numbers them.
pub const COMPONENT: u8 = 0;
pub const COMPONENT_TYPE: u8 = 1;
pub const INSTANCE_TYPE: u8 = 2;
pub const MODULE_TYPE: u8 = 3;

pub const FIELDS: u8 = 25;
pub const BUILTIN_FIELD: u8 = 19;
pub const BUILTINS: u16 = 48;
pub const EXPORT_FIELD: u8 = 22;

/// How many values e of a FIELD row may have: a builtin, or whether an export has an ascribed type.
pub fn values_of_e(field: u8) -> u16 {
    match field {
        BUILTIN_FIELD => BUILTINS,
        EXPORT_FIELD => 2,
        _ => 1,
    }
}

/// Whether a scope of this kind may have this field.
pub fn allowed(kind: u8, field: u8) -> bool {
    match kind {
        COMPONENT => matches!(field, 1..=22 | 25),
        COMPONENT_TYPE => matches!(field, 4 | 9..=17 | 21 | 23),
        INSTANCE_TYPE => matches!(field, 4 | 9..=17 | 23),
        _ => matches!(field, 4 | 5 | 9..=11 | 24),
    }
}

/// One row that may come.
#[derive(Clone, Copy, Debug, PartialEq, Eq)]
pub enum Want {
    Decl(Spaces),
    Ref { spaces: Spaces, paths: bool },
    Outer(u8),
    Export,
    Case,
    Open(u8),
}

fn may_be_name(x: u32) -> bool {
    x < FIRST_INSERTED
}

fn operand_is_sound(named: bool, x: u32) -> bool {
    !named || (x != 0 && may_be_name(x))
}

/// The most PATH rows after a reference to this space.
fn most_paths(space: u8) -> u32 {
    if space <= 6 { 1 } else { u32::MAX }
}

impl Want {
    /// Whether the row is one of these, sound in all its parts.
    pub fn fits(self, row: Row) -> bool {
        let Row { code, b, e, x, y, z } = row;
        match self {
            Want::Decl(spaces) => code == DECL && spaces.has(b) && e == 0 && may_be_name(x) && y == 0,
            Want::Ref { spaces, paths } => {
                let most = if paths { most_paths(b) } else { 0 };
                code == REF && spaces.has(b) && e <= 1 && operand_is_sound(e == 1, x) && y <= most
            }
            Want::Outer(space) => {
                let sound = operand_is_sound(e & 1 != 0, x) && operand_is_sound(e & 2 != 0, y);
                code == OUTER && b == space && e <= 3 && sound
            }
            Want::Export => code == EXPORT && (b, e, y, z) == (0, 0, 0, 0),
            Want::Case => code == CASE && (b, e, y) == (0, 0, 0) && may_be_name(x),
            Want::Open(kind) => code == OPEN && b == kind && (e, y, z) == (0, 0, 0) && may_be_name(x),
        }
    }
}

pub fn sound_field(row: Row) -> bool {
    row.code == FIELD && (1..=FIELDS).contains(&row.b) && row.e < values_of_e(row.b) && (row.x, row.y) == (0, 0)
}

pub fn sound_path(row: Row) -> bool {
    row.code == PATH && (row.b, row.e, row.y, row.z) == (0, 0, 0, 0)
}

/// A pattern of rows. PATH rows and the rows inside an inner scope are left out of it.
#[derive(Clone, Debug)]
pub enum Shape {
    Never,
    Done,
    One(Want),
    Then(Rc<Shape>, Rc<Shape>),
    Any(Vec<Shape>),
    Many(Rc<Shape>),
}

impl Shape {
    fn then(self, next: Shape) -> Shape {
        match (self, next) {
            (Shape::Never, _) => Shape::Never,
            (Shape::Done, next) => next,
            (first, Shape::Done) => first,
            (first, next) => Shape::Then(Rc::new(first), Rc::new(next)),
        }
    }

    fn many(self) -> Shape {
        Shape::Many(Rc::new(self))
    }

    fn maybe(self) -> Shape {
        Shape::Any(vec![Shape::Done, self])
    }

    /// Whether it may end here.
    pub fn may_end(&self) -> bool {
        match self {
            Shape::Never | Shape::One(_) => false,
            Shape::Done | Shape::Many(_) => true,
            Shape::Then(first, next) => first.may_end() && next.may_end(),
            Shape::Any(shapes) => shapes.iter().any(Shape::may_end),
        }
    }

    /// What may come after this row; `Never` if the row itself may not come.
    pub fn after(&self, row: Row) -> Shape {
        match self {
            Shape::Never | Shape::Done => Shape::Never,
            Shape::One(want) if want.fits(row) => Shape::Done,
            Shape::One(_) => Shape::Never,
            Shape::Then(first, next) => {
                let within = first.after(row).then(next.as_ref().clone());
                let beyond = if first.may_end() { next.after(row) } else { Shape::Never };
                either(vec![within, beyond])
            }
            Shape::Any(shapes) => either(shapes.iter().map(|shape| shape.after(row)).collect()),
            Shape::Many(shape) => shape.after(row).then(self.clone()),
        }
    }
}

fn either(mut shapes: Vec<Shape>) -> Shape {
    shapes.retain(|shape| !matches!(shape, Shape::Never));
    match shapes.len() {
        0 => Shape::Never,
        1 => shapes.remove(0),
        _ => Shape::Any(shapes),
    }
}

fn decl(space: u8) -> Shape {
    Shape::One(Want::Decl(Spaces::one(space)))
}

fn r(space: u8) -> Shape {
    r_of(Spaces::one(space))
}

fn r_of(spaces: Spaces) -> Shape {
    Shape::One(Want::Ref { spaces, paths: true })
}

fn p(space: u8) -> Shape {
    Shape::One(Want::Ref { spaces: Spaces::one(space), paths: false })
}

fn options() -> Shape {
    Shape::Any(vec![r(3), r(0), r(4)]).many()
}

/// A DECL of one of these spaces, then what follows by that space.
fn by_space(spaces: Spaces, rest: fn(u8) -> Shape) -> Shape {
    Shape::Any(spaces.each().map(|space| decl(space).then(rest(space))).collect())
}

fn signature(space: u8) -> Shape {
    match space {
        7 => r(4),
        9 | 12 => p(9).maybe(),
        _ => r(9),
    }
}

fn open(space: u8, kind: u8) -> Shape {
    decl(space).then(Shape::One(Want::Open(kind)))
}

/// `heap` is the space of heap types.
fn operands_of_builtin(code: u16, heap: u8) -> Shape {
    match code {
        0 => r(8).then(options()),
        1..=3 | 16 | 19..=24 | 27..=31 => r(9),
        4 => r(4),
        5 | 40 => r(4).then(r(2)),
        13 => p(9).maybe().then(options()),
        14 | 15 => p(heap).maybe(),
        17 | 18 | 25 | 26 => r(9).then(options()),
        32 | 33 => options(),
        35 | 36 => r(3),
        _ => Shape::Done,
    }
}

fn shape(field: u8, e: u16, heap: u8) -> Shape {
    let export = || Shape::One(Want::Export);
    match field {
        1 => decl(7),
        2 => decl(6).then(r(7)).then(r(6).many()),
        3 => decl(6).then(r_of(FIVE).many()),
        4 => decl(4).then(p(4).many()),
        5 => Shape::Any(vec![Shape::Done, decl(4).then(decl(4).many()).then(p(4).many())]),
        6 => open(11, COMPONENT),
        7 => decl(10).then(r(11)).then(r_of(SIX).many()),
        8 => decl(10).then(r_of(SIX).many()),
        9 => Shape::One(Want::Decl(SIX)).then(p(10)).then(export()),
        10 => Shape::One(Want::Decl(FIVE)).then(p(6)).then(export()),
        11 => by_space(FOUR, |space| Shape::One(Want::Outer(space))),
        12 => {
            let case = Shape::One(Want::Case).then(p(9).maybe());
            decl(9).then(Shape::Any(vec![p(9).many(), case.many()]))
        }
        13 => decl(9).then(p(9).many()),
        14 => open(9, COMPONENT_TYPE),
        15 => open(9, INSTANCE_TYPE),
        16 => decl(9).then(p(heap).maybe()).then(r(0).maybe()),
        17 => open(4, MODULE_TYPE),
        18 => decl(8).then(r(9)).then(r(0)).then(options()),
        BUILTIN_FIELD => decl(0).then(operands_of_builtin(e, heap)),
        20 => decl(12).many().then(p(8)).then(r(12).many()),
        21 | 23 => by_space(SIX, signature),
        EXPORT_FIELD if e == 0 => by_space(SIX, r),
        EXPORT_FIELD => by_space(SIX, |space| signature(space).then(r(space))),
        24 => p(4).many(),
        _ => Shape::Done,
    }
}

/// The shapes of all fields by code and e, made once.
pub struct Shapes {
    fields: Vec<Vec<Shape>>,
}

impl Shapes {
    /// Those of rule set 0.
    pub fn new() -> Shapes {
        Shapes::with_heap(9)
    }

    /// Those of rule set 1, whose heap types are core types.
    pub fn newer() -> Shapes {
        Shapes::with_heap(4)
    }

    fn with_heap(heap: u8) -> Shapes {
        let by_e = |field| (0..values_of_e(field)).map(|e| shape(field, e, heap)).collect();
        Shapes { fields: (0..=FIELDS).map(by_e).collect() }
    }

    /// What follows this FIELD row, which is sound.
    pub fn of(&self, row: Row) -> &Shape {
        &self.fields[usize::from(row.b)][usize::from(row.e)]
    }
}
