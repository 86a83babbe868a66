//! The annotations, made as the keywords are.

use super::kw::keywords;
use super::parser::{Cursor, Parse, Parser, Peek, Result};
use crate::token::Span;

include!(concat!(env!("OUT_DIR"), "/annotations.rs"));
