//! An error of the crate: where, and the message.

use crate::token::Span;

#[derive(Debug)]
pub struct Error {
    pub span: Span,
    pub message: String,
}

impl Error {
    pub fn new(span: Span, message: String) -> Error {
        Error { span, message }
    }
}
