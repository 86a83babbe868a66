//! The keywords, as types that hold where they stand. The build collects their names from the crate's files.

use super::parser::{Cursor, Parse, Parser, Peek, Result};
use crate::token::Span;

macro_rules! keywords {
    ($($name:ident)*) => ($(
        #[allow(non_camel_case_types)]
        #[derive(Debug, Clone, Copy)]
        pub struct $name(pub Span);

        impl<'a> Parse<'a> for $name {
            fn parse(parser: Parser<'a>) -> Result<Self> {
                parser.parse()
            }
        }

        impl Peek for $name {
            fn peek(cursor: Cursor<'_>) -> Result<bool> {
                cursor.keyword().map(|found| found.is_some())
            }
            fn display() -> &'static str {
                stringify!($name)
            }
        }
    )*)
}

pub(super) use keywords;

include!(concat!(env!("OUT_DIR"), "/keywords.rs"));
