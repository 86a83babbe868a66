//! What the crate's files need from files that are not supplied: our own, and no more than they ask for.

pub mod annotation;
pub mod core;
pub mod error;
pub mod expand;
pub mod kw;
pub mod lexer;
pub mod parser;
