//! What the items of each space are called.

use crate::rows::Space;
use std::fmt;

/// In the order of the spaces' numbers.
const ITEMS: [&str; 13] = [
    "core funcs",
    "core globals",
    "core tables",
    "core memories",
    "core types",
    "core tags",
    "core instances",
    "core modules",
    "funcs",
    "types",
    "instances",
    "components",
    "values",
];

impl Space {
    /// Its number, 0 to 12.
    pub fn number(self) -> u32 {
        self as u32
    }
}

impl fmt::Display for Space {
    fn fmt(&self, f: &mut fmt::Formatter<'_>) -> fmt::Result {
        f.write_str(ITEMS[*self as usize])
    }
}
