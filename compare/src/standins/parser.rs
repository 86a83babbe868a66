//! A parser that cannot exist: the crate's files state how each node is parsed, and nothing here parses text.

use super::error::Error;
use super::lexer::{Float, Integer};
use crate::token::Span;
use std::marker::PhantomData;

pub type Result<T, E = Error> = std::result::Result<T, E>;

#[derive(Clone, Copy)]
enum Never {}

pub trait Parse<'a>: Sized {
    fn parse(parser: Parser<'a>) -> Result<Self>;
}

pub trait Peek {
    fn peek(cursor: Cursor<'_>) -> Result<bool>;
    fn display() -> &'static str;
}

macro_rules! never {
    ($name:ident) => {
        #[derive(Clone, Copy)]
        pub struct $name<'a> {
            never: Never,
            text: PhantomData<&'a str>,
        }
    };
}

never!(Parser);
never!(Cursor);
never!(Lookahead1);

impl<'a> Parser<'a> {
    pub fn parse<T: Parse<'a>>(self) -> Result<T> {
        match self.never {}
    }
    pub fn peek<T: Peek>(self) -> Result<bool> {
        match self.never {}
    }
    pub fn peek2<T: Peek>(self) -> Result<bool> {
        match self.never {}
    }
    pub fn parens<T>(self, _inside: impl FnOnce(Parser<'a>) -> Result<T>) -> Result<T> {
        match self.never {}
    }
    pub fn step<T>(self, _step: impl FnOnce(Cursor<'a>) -> Result<(T, Cursor<'a>)>) -> Result<T> {
        match self.never {}
    }
    pub fn with_standard_annotations_registered<T>(self, _inside: impl FnOnce(Parser<'a>) -> Result<T>) -> Result<T> {
        match self.never {}
    }
    pub fn is_empty(self) -> bool {
        match self.never {}
    }
    pub fn depth_check(self) -> Result<()> {
        match self.never {}
    }
    pub fn lookahead1(self) -> Lookahead1<'a> {
        match self.never {}
    }
    pub fn prev_span(self) -> Span {
        match self.never {}
    }
    pub fn error(self, _message: impl ToString) -> Error {
        match self.never {}
    }
    pub fn error_at(self, _span: Span, _message: impl ToString) -> Error {
        match self.never {}
    }
}

impl<'a> Lookahead1<'a> {
    pub fn peek<T: Peek>(&mut self) -> Result<bool> {
        match self.never {}
    }
    pub fn parser(&self) -> Parser<'a> {
        match self.never {}
    }
    pub fn error(self) -> Error {
        match self.never {}
    }
}

macro_rules! tokens {
    ($($name:ident: $token:ty;)*) => ($(
        pub fn $name(self) -> Result<Option<$token>> {
            match self.never {}
        }
    )*)
}

macro_rules! peeks {
    ($($name:ident)*) => ($(
        pub fn $name(self) -> Result<bool> {
            match self.never {}
        }
    )*)
}

impl<'a> Cursor<'a> {
    tokens! {
        id: (&'a str, Cursor<'a>);
        keyword: (&'a str, Cursor<'a>);
        string: (&'a [u8], Cursor<'a>);
        integer: (Integer<'a>, Cursor<'a>);
        float: (Float<'a>, Cursor<'a>);
        lparen: Cursor<'a>;
        rparen: Cursor<'a>;
    }

    peeks! { peek_id peek_integer peek_string peek_lparen peek_rparen }

    pub fn cur_span(self) -> Span {
        match self.never {}
    }
    pub fn error(self, _message: impl ToString) -> Error {
        match self.never {}
    }
}

impl<'a, T: Parse<'a> + Peek> Parse<'a> for Option<T> {
    fn parse(parser: Parser<'a>) -> Result<Self> {
        parser.parse::<T>().map(Some)
    }
}
