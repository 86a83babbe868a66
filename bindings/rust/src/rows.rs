//! Rows as types, a builder whose rows are sound in themselves, and iteration over the rows of a form.
//!
//! Sound rows alone do not make a form: `docs/RULES.md` says which rows may follow each other, and [`crate::resolve`] says
//! which row breaks the form.

use crate::{HEADER_SIZE, MAX_ROWS, ROW_SIZE};

/// The first name that an inserted field can have.
const FIRST_FRESH: u32 = 1 << 31;

/// Makes an enum of codes with a function from a code back to its case.
macro_rules! codes {
    ($(#[$doc:meta])* $name:ident { $($(#[$case_doc:meta])* $case:ident = $code:literal,)* }) => {
        $(#[$doc])*
        #[derive(Clone, Copy, Debug, PartialEq, Eq, Hash)]
        #[repr(u8)]
        pub enum $name {
            $($(#[$case_doc])* $case = $code,)*
        }

        impl $name {
            /// The case of a code, if it is one.
            pub fn of(code: u8) -> Option<$name> {
                match code {
                    $($code => Some($name::$case),)*
                    _ => None,
                }
            }
        }
    };
}

codes! {
    /// A space: what is counted apart.
    Space {
        /// Core functions.
        CoreFunc = 0,
        /// Core globals.
        CoreGlobal = 1,
        /// Core tables.
        CoreTable = 2,
        /// Core memories.
        CoreMemory = 3,
        /// Core types.
        CoreType = 4,
        /// Core tags.
        CoreTag = 5,
        /// Core instances.
        CoreInstance = 6,
        /// Core modules.
        CoreModule = 7,
        /// Functions.
        Func = 8,
        /// Types.
        Type = 9,
        /// Instances.
        Instance = 10,
        /// Components.
        Component = 11,
        /// Values.
        Value = 12,
    }
}

codes! {
    /// What a scope is the scope of.
    Scope {
        /// A component.
        Component = 0,
        /// A component type.
        ComponentType = 1,
        /// An instance type.
        InstanceType = 2,
        /// A core module type.
        ModuleType = 3,
    }
}

codes! {
    /// What a field is.
    Field {
        /// A core module.
        CoreModule = 1,
        /// A core instance that is instantiated.
        CoreInstantiate = 2,
        /// A core instance made of exports.
        CoreExports = 3,
        /// A core type.
        CoreType = 4,
        /// Core types that may refer to each other.
        CoreRec = 5,
        /// A component.
        Component = 6,
        /// An instance that is instantiated.
        Instantiate = 7,
        /// An instance made of exports.
        Exports = 8,
        /// An alias of an export.
        AliasExport = 9,
        /// An alias of a core export.
        AliasCoreExport = 10,
        /// An alias of something further out.
        AliasOuter = 11,
        /// A defined type.
        DefinedType = 12,
        /// A function type.
        FuncType = 13,
        /// A component type.
        ComponentType = 14,
        /// An instance type.
        InstanceType = 15,
        /// A resource type.
        ResourceType = 16,
        /// A core module type.
        CoreModuleType = 17,
        /// A lifted function.
        Lift = 18,
        /// A core function that the component model has built in.
        Builtin = 19,
        /// A start.
        Start = 20,
        /// An import.
        Import = 21,
        /// An export.
        Export = 22,
        /// An export in a type.
        ExportDeclaration = 23,
        /// An import or export of a core module type.
        CoreImportOrExport = 24,
        /// A custom section.
        Custom = 25,
    }
}

/// A name: a number that stands for a word of the text, from 1 up. Those from 2147483648 up are given by the resolver.
#[derive(Clone, Copy, Debug, PartialEq, Eq, Hash, PartialOrd, Ord)]
pub struct Name(u32);

impl Name {
    /// A name that an input may have, if this number is one: from 1 to 2147483647.
    pub const fn new(number: u32) -> Option<Name> {
        if number == 0 || number >= FIRST_FRESH {
            None
        } else {
            Some(Name(number))
        }
    }

    /// Its number.
    pub const fn number(self) -> u32 {
        self.0
    }

    /// Whether the resolver gave it.
    pub const fn is_fresh(self) -> bool {
        self.0 >= FIRST_FRESH
    }
}

/// An operand: a number or a name.
#[derive(Clone, Copy, Debug, PartialEq, Eq, Hash)]
pub enum Operand {
    /// A number, as it is written.
    Number(u32),
    /// A name.
    Name(Name),
}

impl Operand {
    fn parts(self) -> (u16, u32) {
        match self {
            Operand::Number(number) => (0, number),
            Operand::Name(name) => (1, name.0),
        }
    }

    fn of(is_name: bool, x: u32) -> Option<Operand> {
        match (is_name, x) {
            (false, number) => Some(Operand::Number(number)),
            (true, 0) => None,
            (true, name) => Some(Operand::Name(Name(name))),
        }
    }
}

/// A row.
#[derive(Clone, Copy, Debug, PartialEq, Eq, Hash)]
pub enum Row {
    /// Begins a field; `e` is the builtin's code, or 1 for an export with an ascribed type, else 0.
    Field {
        /// What it is.
        field: Field,
        /// The part e.
        e: u16,
        /// The place.
        place: u32,
    },
    /// Declares something.
    Declaration {
        /// Its space.
        space: Space,
        /// Its name, if it has one.
        name: Option<Name>,
        /// The place.
        place: u32,
    },
    /// Refers to something.
    Reference {
        /// Its space.
        space: Space,
        /// What it is called.
        operand: Operand,
        /// How many PATH rows follow.
        paths: u32,
        /// The place.
        place: u32,
    },
    /// An export name of a path.
    Path(u32),
    /// Refers to something further out.
    Outer {
        /// Its space.
        space: Space,
        /// How far out, or the name of the scope.
        outer: Operand,
        /// What it is called there.
        index: Operand,
        /// The place.
        place: u32,
    },
    /// A case of a type.
    Case {
        /// Its name, if it has one.
        name: Option<Name>,
        /// The place.
        place: u32,
    },
    /// Opens a scope.
    Open {
        /// What it is the scope of.
        scope: Scope,
        /// Its name, if it has one.
        name: Option<Name>,
    },
    /// Closes a scope.
    Close,
    /// The export name of an alias.
    Export(u32),
}

/// The number of a name that may be missing.
fn number(name: Option<Name>) -> u32 {
    name.map_or(0, Name::number)
}

/// A name that may be missing, by its number.
fn named(number: u32) -> Option<Name> {
    (number != 0).then_some(Name(number))
}

impl Row {
    /// Its sixteen bytes.
    pub fn bytes(self) -> [u8; ROW_SIZE] {
        let (code, b, e, x, y, z) = match self {
            Row::Field { field, e, place } => (1, field as u8, e, 0, 0, place),
            Row::Declaration { space, name, place } => (2, space as u8, 0, number(name), 0, place),
            Row::Reference { space, operand, paths, place } => {
                let (e, x) = operand.parts();
                (3, space as u8, e, x, paths, place)
            }
            Row::Path(export) => (4, 0, 0, export, 0, 0),
            Row::Outer { space, outer, index, place } => {
                let ((low, x), (high, y)) = (outer.parts(), index.parts());
                (5, space as u8, low + 2 * high, x, y, place)
            }
            Row::Case { name, place } => (6, 0, 0, number(name), 0, place),
            Row::Open { scope, name } => (7, scope as u8, 0, number(name), 0, 0),
            Row::Close => (8, 0, 0, 0, 0, 0),
            Row::Export(export) => (9, 0, 0, export, 0, 0),
        };
        let mut bytes = [0; ROW_SIZE];
        bytes[0] = code;
        bytes[1] = b;
        bytes[2..4].copy_from_slice(&e.to_le_bytes());
        for (at, word) in [(4, x), (8, y), (12, z)] {
            bytes[at..at + 4].copy_from_slice(&u32::to_le_bytes(word));
        }
        bytes
    }

    /// The row that these sixteen bytes are, if they are a row: what must be zero is zero, and codes and names are valid.
    pub fn of(bytes: &[u8; ROW_SIZE]) -> Option<Row> {
        let word = |at: usize| u32::from_le_bytes([bytes[at], bytes[at + 1], bytes[at + 2], bytes[at + 3]]);
        let (b, e, x, y, place) = (bytes[1], u16::from_le_bytes([bytes[2], bytes[3]]), word(4), word(8), word(12));
        let row = match bytes[0] {
            1 => Row::Field { field: Field::of(b)?, e, place },
            2 => Row::Declaration { space: Space::of(b)?, name: named(x), place },
            3 => Row::Reference { space: Space::of(b)?, operand: Operand::of(e == 1, x)?, paths: y, place },
            4 => Row::Path(x),
            5 => {
                let (outer, index) = (Operand::of(e & 1 == 1, x)?, Operand::of(e & 2 == 2, y)?);
                Row::Outer { space: Space::of(b)?, outer, index, place }
            }
            6 => Row::Case { name: named(x), place },
            7 => Row::Open { scope: Scope::of(b)?, name: named(x) },
            8 => Row::Close,
            9 => Row::Export(x),
            _ => return None,
        };
        // What the row does not hold must be zero.
        (row.bytes() == *bytes).then_some(row)
    }
}

/// The rows of a form of version 1, in order; `None` for sixteen bytes that are not a row. Bytes after the last whole row
/// are left out.
pub fn rows(form: &[u8]) -> impl Iterator<Item = Option<Row>> + '_ {
    let behind = form.get(HEADER_SIZE..).unwrap_or(&[]);
    behind.chunks_exact(ROW_SIZE).map(|row| Row::of(row.try_into().expect("sixteen bytes are sixteen")))
}

/// Puts rows one after another. Every scope that is opened is closed, PATH rows follow their reference and are counted, and
/// a field's inner scope has the field's name, so that each row is sound in itself.
///
/// ```
/// use wnt::{component, Field, Name, Operand, Space};
///
/// let t = Name::new(1).unwrap();
/// let form = component(None, |root| {
///     root.field(Field::DefinedType, 10).declare(Space::Type, t, 10);
///     root.field(Field::FuncType, 20).declare(Space::Type, None, 20).refer(Space::Type, Operand::Name(t), 21);
/// });
/// assert_eq!(wnt::resolve(&form.unwrap()).unwrap().len(), wnt::form_size(7));
/// ```
#[derive(Clone, Debug, Default)]
pub struct Builder {
    rows: Vec<Row>,
}

impl Builder {
    fn put(&mut self, row: Row) -> &mut Builder {
        self.rows.push(row);
        self
    }

    /// Begins a field.
    pub fn field(&mut self, field: Field, place: u32) -> &mut Builder {
        self.put(Row::Field { field, e: 0, place })
    }

    /// Begins the field of a builtin, given by its code.
    pub fn builtin(&mut self, code: u16, place: u32) -> &mut Builder {
        self.put(Row::Field { field: Field::Builtin, e: code, place })
    }

    /// Begins an export with an ascribed type, whose reference comes first.
    pub fn ascribed_export(&mut self, place: u32) -> &mut Builder {
        self.put(Row::Field { field: Field::Export, e: 1, place })
    }

    /// Declares something, with or without a name.
    pub fn declare(&mut self, space: Space, name: impl Into<Option<Name>>, place: u32) -> &mut Builder {
        self.put(Row::Declaration { space, name: name.into(), place })
    }

    /// Refers to something.
    pub fn refer(&mut self, space: Space, operand: Operand, place: u32) -> &mut Builder {
        self.refer_by_path(space, operand, &[], place)
    }

    /// Refers to something by the export names of a path from an instance.
    pub fn refer_by_path(&mut self, space: Space, operand: Operand, path: &[u32], place: u32) -> &mut Builder {
        self.put(Row::Reference { space, operand, paths: path.len() as u32, place });
        self.rows.extend(path.iter().map(|export| Row::Path(*export)));
        self
    }

    /// Refers to something further out.
    pub fn outer(&mut self, space: Space, outer: Operand, index: Operand, place: u32) -> &mut Builder {
        self.put(Row::Outer { space, outer, index, place })
    }

    /// A case of a type.
    pub fn case(&mut self, name: impl Into<Option<Name>>, place: u32) -> &mut Builder {
        self.put(Row::Case { name: name.into(), place })
    }

    /// The export name of an alias.
    pub fn export(&mut self, export: u32) -> &mut Builder {
        self.put(Row::Export(export))
    }

    /// A scope inside the field whose declaration was put last. It has the name of that declaration.
    pub fn scope(&mut self, scope: Scope, inside: impl FnOnce(&mut Builder)) -> &mut Builder {
        let name = match self.rows.last() {
            Some(Row::Declaration { name, .. }) => *name,
            _ => None,
        };
        self.open(scope, name, inside)
    }

    fn open(&mut self, scope: Scope, name: Option<Name>, inside: impl FnOnce(&mut Builder)) -> &mut Builder {
        self.put(Row::Open { scope, name });
        inside(self);
        self.put(Row::Close)
    }
}

/// The bytes of a form of version 1 whose root is a component, with or without a name; `None` if it has more rows than an
/// input may have.
pub fn component(name: impl Into<Option<Name>>, inside: impl FnOnce(&mut Builder)) -> Option<Vec<u8>> {
    let mut builder = Builder::default();
    builder.open(Scope::Component, name.into(), inside);
    if builder.rows.len() > MAX_ROWS {
        return None;
    }
    let mut form = b"WNT\x01\x00\x00".to_vec();
    form.extend((builder.rows.len() as u16).to_le_bytes());
    form.extend(builder.rows.iter().flat_map(|row| row.bytes()));
    Some(form)
}
