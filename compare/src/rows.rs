//! Rows and forms as document 01 writes them, and what a resolver answers to a form.

use std::fmt;

pub const FIELD: u8 = 1;
pub const DECL: u8 = 2;
pub const REF: u8 = 3;
pub const PATH: u8 = 4;
pub const OUTER: u8 = 5;
pub const CASE: u8 = 6;
pub const OPEN: u8 = 7;
pub const CLOSE: u8 = 8;
pub const EXPORT: u8 = 9;

/// The first name that an inserted field can have; names of an input are below it.
pub const FIRST_INSERTED: u32 = 1 << 31;
pub const HEADER: usize = 8;
pub const ROW: usize = 16;

/// A version of the row form under a rule set: their numbers, the length of the header and of the row count in it, the limits.
#[derive(Clone, Copy, Debug, PartialEq, Eq)]
pub struct Version {
    pub number: u8,
    pub rules: u8,
    pub header: usize,
    pub counting: usize,
    pub rows: usize,
    pub scopes: usize,
}

pub const FIRST: Version = Version { number: 1, rules: 0, header: HEADER, counting: 2, rows: 1023, scopes: 32 };
pub const SECOND: Version = Version { number: 2, rules: 0, header: 16, counting: 4, rows: 16_383, scopes: 64 };
/// The second version under the rule set of the newer tools.
pub const NEWER: Version = Version { rules: 1, ..SECOND };

/// Where a header states its rule set.
pub const RULES_AT: usize = 5;

impl Version {
    /// The version whose number a form has, and rule set 1 if it states that; the first where it has neither number.
    pub fn of(form: &[u8]) -> Version {
        match (form.get(3..RULES_AT), form.get(RULES_AT)) {
            (Some([2, 0]), Some(1)) => NEWER,
            (Some([2, 0]), _) => SECOND,
            _ => FIRST,
        }
    }

    /// A header that states this row count, which is cut if it does not fit.
    pub fn head(self, count: usize) -> Vec<u8> {
        let mut bytes = b"WNT".to_vec();
        bytes.extend([self.number, 0, self.rules]);
        bytes.extend(&(count as u64).to_le_bytes()[..self.counting]);
        bytes.resize(self.header, 0);
        bytes
    }

    /// Whether a form begins with a header of this version, whatever its row count is.
    pub fn begins(self, form: &[u8]) -> bool {
        let count = 6..6 + self.counting;
        form.len() >= self.header && {
            let wanted = self.head(0);
            (0..self.header).all(|at| count.contains(&at) || form[at] == wanted[at])
        }
    }

    /// The row count that a header states, 0 where there is none.
    pub fn count(self, form: &[u8]) -> usize {
        let count = form.get(6..6 + self.counting).unwrap_or(&[]);
        count.iter().rev().fold(0, |sum, byte| 256 * sum + usize::from(*byte))
    }

    /// The same version for a form that lies inside another: that one's root is open around it.
    pub fn one_scope_less(self) -> Version {
        Version { scopes: self.scopes - 1, ..self }
    }

    /// The bytes of a form of this many rows.
    pub const fn form_size(self, rows: usize) -> usize {
        self.header + ROW * rows
    }

    /// How long an output must be for a form of this many rows.
    pub const fn output_size(self, rows: usize) -> usize {
        self.header + 4 * ROW * rows
    }

    /// The bytes of a form with these rows.
    pub fn encode(self, rows: &[Row]) -> Vec<u8> {
        let mut bytes = self.head(rows.len());
        bytes.reserve(ROW * rows.len());
        for row in rows {
            row.encode_into(&mut bytes);
        }
        bytes
    }

    /// The rows behind a header, as many as are whole.
    pub fn decode(self, form: &[u8]) -> Vec<Row> {
        let rows = form.get(self.header..).unwrap_or(&[]);
        rows.chunks_exact(ROW).map(Row::decode).collect()
    }
}

#[derive(Clone, Copy, Debug, Default, PartialEq, Eq, Hash)]
pub struct Row {
    pub code: u8,
    pub b: u8,
    pub e: u16,
    pub x: u32,
    pub y: u32,
    pub z: u32,
}

impl Row {
    pub fn new(code: u8, b: u8, e: u16, x: u32, y: u32, z: u32) -> Row {
        Row { code, b, e, x, y, z }
    }

    pub fn decode(bytes: &[u8]) -> Row {
        let word = |at: usize| u32::from_le_bytes(bytes[at..at + 4].try_into().expect("four bytes"));
        Row {
            code: bytes[0],
            b: bytes[1],
            e: u16::from_le_bytes([bytes[2], bytes[3]]),
            x: word(4),
            y: word(8),
            z: word(12),
        }
    }

    fn encode_into(self, bytes: &mut Vec<u8>) {
        bytes.extend([self.code, self.b]);
        bytes.extend(self.e.to_le_bytes());
        for word in [self.x, self.y, self.z] {
            bytes.extend(word.to_le_bytes());
        }
    }
}

impl fmt::Display for Row {
    fn fmt(&self, f: &mut fmt::Formatter<'_>) -> fmt::Result {
        let Row { code, b, e, x, y, z } = self;
        write!(f, "[{code} {b} {e} {x} {y} {z}]")
    }
}

/// The bytes of a form of version 1 with these rows.
pub fn encode(rows: &[Row]) -> Vec<u8> {
    FIRST.encode(rows)
}

/// The rows of a form of version 1.
pub fn decode(form: &[u8]) -> Vec<Row> {
    FIRST.decode(form)
}

/// How long an output must be for a form of version 1 with this many rows.
pub fn output_size(rows: usize) -> usize {
    FIRST.output_size(rows)
}

#[derive(Clone, Debug, PartialEq, Eq)]
pub enum Answer {
    Accepted(Vec<Row>),
    Refused {
        number: u32,
        place: u32,
    },
    /// The crate stopped with a panic instead of an error.
    Panicked,
}

impl Answer {
    pub fn refused(number: u32, place: u32) -> Answer {
        Answer::Refused { number, place }
    }

    /// The number that `wnt_resolve` returns for this answer.
    pub fn packed(&self) -> u64 {
        match self {
            Answer::Accepted(rows) => rows.len() as u64,
            Answer::Refused { number, place } => (u64::from(*number) << 32) | u64::from(*place),
            Answer::Panicked => u64::MAX,
        }
    }
}
