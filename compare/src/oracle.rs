//! What the crate answers to a well-formed form.

use crate::Error;
use crate::back::{self, Generated};
use crate::component::{self, Component};
use crate::gensym;
use crate::rows::{Answer, Row};
use crate::tree::{self, Texts};
use std::panic::{AssertUnwindSafe, catch_unwind};

/// The crate's `resolve`, or a copy of it with a planted change.
pub type Resolve = for<'t, 'a> fn(&'t mut Component<'a>) -> Result<(), Error>;

pub const CRATE: Resolve = component::resolve::resolve;

pub struct Oracle {
    pub resolve: Resolve,
    generated: Generated,
}

impl Oracle {
    pub fn new(resolve: Resolve) -> Oracle {
        Oracle { resolve, generated: Generated::new() }
    }

    /// The answer on one of the trees that these rows stand for.
    pub fn answer(&self, rows: &[Row], choice: u64) -> Answer {
        let texts = Texts::of(rows);
        let mut component = tree::component(rows, &texts, choice);
        gensym::reset();
        let done = catch_unwind(AssertUnwindSafe(|| (self.resolve)(&mut component)));
        match done {
            Ok(Ok(())) => Answer::Accepted(back::rows(&component, rows, &self.generated)),
            Ok(Err(error)) => refusal(&error),
            Err(_) => Answer::Panicked,
        }
    }
}

/// The number of an error by its message, and the place in its span.
fn refusal(error: &Error) -> Answer {
    let numbers = [
        ("duplicate variant case identifier", 12),
        ("duplicate ", 6),
        ("core instances cannot export", 7),
        ("outer item ", 8),
        ("unknown ", 9),
        ("outer component ", 10),
        ("outer count of ", 11),
    ];
    let known = numbers.iter().find(|(start, _)| error.message.starts_with(start));
    let (_, number) = known.unwrap_or_else(|| panic!("unexpected error: {}", error.message));
    Answer::refused(*number, error.span.offset() as u32)
}
