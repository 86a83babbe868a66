//! The number tokens that the crate's `token.rs` speaks of. None is ever made.

use std::borrow::Cow;

pub enum Float<'a> {
    Inf { negative: bool },
    Nan { negative: bool, val: Option<Cow<'a, str>> },
    Val { hex: bool, integral: Cow<'a, str>, fractional: Option<Cow<'a, str>>, exponent: Option<Cow<'a, str>> },
}

pub struct Integer<'a> {
    digits: &'a str,
}

impl<'a> Integer<'a> {
    pub fn val(&self) -> (&'a str, u32) {
        (self.digits, 10)
    }
}
