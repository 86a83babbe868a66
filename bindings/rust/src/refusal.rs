//! The refusals: their numbers, their places and their meaning in words.

use crate::Space;
use std::error::Error;
use std::fmt;

/// Why a form was refused, and where.
///
/// A `row` is counted from 0. A `place` is the last part of a row, which the form's author chose. What else a refusal
/// carries is `None` where the function that refuses does not tell it; [`crate::resolve`] and [`crate::resolve_into`] always
/// do. The limits named here are those of version 1; version 2 has a header of 16 bytes, up to 16,383 rows and 64 scopes.
#[derive(Clone, Copy, Debug, PartialEq, Eq, Hash)]
pub enum Refusal {
    /// 1: fewer than 8 bytes, or bytes 0 to 5 are not those of the header.
    Header,
    /// 2: the row count is 0 or above 1023, or the length is not 8 + 16 x rows.
    RowCount,
    /// 3: the output buffer is shorter than 8 + 64 x rows, or a working area is too small.
    Room,
    /// 4: a row breaks the form.
    Broken {
        /// The row, or the row count if the form ends early.
        row: u32,
    },
    /// 5: a scope is opened while 32 are open.
    Deep {
        /// The row that opens it.
        row: u32,
    },
    /// 6: a name is declared twice in one space of one scope.
    DuplicateName {
        /// The second declaration's.
        place: u32,
        /// The space in which it is declared twice.
        space: Option<Space>,
        /// The place of the first declaration.
        first: Option<u32>,
    },
    /// 7: a path to a core type or a core instance.
    NotExported {
        /// The reference's.
        place: u32,
    },
    /// 8: the name means something in a scope further out, and it is not a core module, core type, type or component.
    NotOuter {
        /// The reference's.
        place: u32,
        /// The space asked for.
        space: Option<Space>,
    },
    /// 9: no scope in which the name is looked up declares it.
    UnknownName {
        /// The reference's or the outer alias's.
        place: u32,
        /// The space asked for; for a path, the space of its instance.
        space: Option<Space>,
    },
    /// 10: no open scope has the name of the outer scope.
    UnknownScope {
        /// The field's.
        place: u32,
    },
    /// 11: the outer count is not below the number of open scopes.
    CountTooLarge {
        /// The field's.
        place: u32,
    },
    /// 12: an earlier case of the field has that name.
    DuplicateCase {
        /// The second case's.
        place: u32,
    },
    /// 13, only under rule set 1: no earlier field declares the name.
    NotEarlier {
        /// The reference's or the outer alias's.
        place: u32,
    },
    /// 14, only on the way back: no input has these bytes as its output.
    NoInput,
    /// 15: the sheet is not a binding sheet, or the form is refused, or the other form is not its resolved form.
    NotItsSheet,
}

impl Refusal {
    /// The refusal with that number at that place.
    ///
    /// Panics if no refusal has that number, which the library's contract excludes.
    pub(crate) fn of(number: u32, place: u32) -> Refusal {
        match number {
            1 => Refusal::Header,
            2 => Refusal::RowCount,
            3 => Refusal::Room,
            4 => Refusal::Broken { row: place },
            5 => Refusal::Deep { row: place },
            6 => Refusal::DuplicateName { place, space: None, first: None },
            7 => Refusal::NotExported { place },
            8 => Refusal::NotOuter { place, space: None },
            9 => Refusal::UnknownName { place, space: None },
            10 => Refusal::UnknownScope { place },
            11 => Refusal::CountTooLarge { place },
            12 => Refusal::DuplicateCase { place },
            13 => Refusal::NotEarlier { place },
            14 => Refusal::NoInput,
            15 => Refusal::NotItsSheet,
            _ => unreachable!("the static library is of another version: it answered refusal {number}"),
        }
    }

    /// The same with what else the library tells: the space, and the place of the first declaration.
    pub(crate) fn told(number: u32, place: u32, told: [u32; 2]) -> Refusal {
        let space = u8::try_from(told[0]).ok().and_then(Space::of);
        match number {
            6 => Refusal::DuplicateName { place, space, first: Some(told[1]) },
            8 => Refusal::NotOuter { place, space },
            9 => Refusal::UnknownName { place, space },
            _ => Refusal::of(number, place),
        }
    }

    /// Its number: 1 to 12; 13 under rule set 1, 14 on the way back, 15 for a binding sheet.
    pub fn number(self) -> u32 {
        match self {
            Refusal::Header => 1,
            Refusal::RowCount => 2,
            Refusal::Room => 3,
            Refusal::Broken { .. } => 4,
            Refusal::Deep { .. } => 5,
            Refusal::DuplicateName { .. } => 6,
            Refusal::NotExported { .. } => 7,
            Refusal::NotOuter { .. } => 8,
            Refusal::UnknownName { .. } => 9,
            Refusal::UnknownScope { .. } => 10,
            Refusal::CountTooLarge { .. } => 11,
            Refusal::DuplicateCase { .. } => 12,
            Refusal::NotEarlier { .. } => 13,
            Refusal::NoInput => 14,
            Refusal::NotItsSheet => 15,
        }
    }

    /// Its place: 0 for refusals 1 to 3, 14 and 15, a row for 4 and 5, the place of a row for 6 to 13.
    pub fn place(self) -> u32 {
        match self {
            Refusal::Header | Refusal::RowCount | Refusal::Room | Refusal::NoInput | Refusal::NotItsSheet => 0,
            Refusal::Broken { row } | Refusal::Deep { row } => row,
            Refusal::DuplicateName { place, .. }
            | Refusal::NotExported { place }
            | Refusal::NotOuter { place, .. }
            | Refusal::UnknownName { place, .. }
            | Refusal::UnknownScope { place }
            | Refusal::CountTooLarge { place }
            | Refusal::DuplicateCase { place }
            | Refusal::NotEarlier { place } => place,
        }
    }

    /// The space of the name, for refusals 6, 8 and 9.
    pub fn space(self) -> Option<Space> {
        match self {
            Refusal::DuplicateName { space, .. }
            | Refusal::NotOuter { space, .. }
            | Refusal::UnknownName { space, .. } => space,
            _ => None,
        }
    }

    /// The place of the name's first declaration, for refusal 6.
    pub fn first(self) -> Option<u32> {
        match self {
            Refusal::DuplicateName { first, .. } => first,
            _ => None,
        }
    }

    /// What it means, without what else is told.
    fn meaning(self) -> &'static str {
        match self {
            Refusal::Header => "this is no form: it does not begin with WNT and version 1",
            Refusal::RowCount => "the row count is 0 or above 1023, or the length is not 8 + 16 x rows",
            Refusal::Room => "the output buffer is shorter than 8 + 64 x rows",
            Refusal::Broken { .. } => {
                "no form begins with the rows up to it, or the form ends early if it has no such row"
            }
            Refusal::Deep { .. } => "a scope is opened while 32 are open",
            Refusal::DuplicateName { .. } => "this scope declares that name twice",
            Refusal::NotExported { .. } => "a core type or a core instance cannot be an export of a core instance",
            Refusal::NotOuter { .. } => "that name is declared further out",
            Refusal::UnknownName { .. } => "no scope declares that name",
            Refusal::UnknownScope { .. } => "no open scope has the name of the outer scope",
            Refusal::CountTooLarge { .. } => "the outer count is not below the number of open scopes",
            Refusal::DuplicateCase { .. } => "an earlier case of this field has that name",
            Refusal::NotEarlier { .. } => "no earlier field declares that name",
            Refusal::NoInput => "no input has these bytes as its output",
            Refusal::NotItsSheet => "no sheet, or not an accepted form and its resolved form",
        }
    }

    /// Writes what else is told.
    fn write_told(self, f: &mut fmt::Formatter<'_>) -> fmt::Result {
        if let Some(space) = self.space() {
            write!(f, " among the {space}")?;
        }
        if let Some(first) = self.first() {
            write!(f, ", first declared at place {first}")?;
        }
        match self {
            Refusal::NotOuter { .. } => f.write_str(", from where it cannot be had"),
            Refusal::UnknownName { .. } => f.write_str(", where it is looked up"),
            _ => Ok(()),
        }
    }
}

impl fmt::Display for Refusal {
    fn fmt(&self, f: &mut fmt::Formatter<'_>) -> fmt::Result {
        let (number, place, meaning) = (self.number(), self.place(), self.meaning());
        match number {
            1..=3 | 14 | 15 => write!(f, "refused {number}: {meaning}"),
            4..=5 => write!(f, "refused {number} at row {place}: {meaning}"),
            _ => write!(f, "refused {number} at place {place}: {meaning}"),
        }?;
        self.write_told(f)
    }
}

impl Error for Refusal {}
