//! Accepted random forms and what the crate makes of them, as files.

use crate::compare::Comparison;
use crate::rows::{Answer, encode};
use crate::source;
use std::fs::write;
use std::io::Result;
use std::path::Path;

/// Writes `count` forms into a folder, each as `N.wnt` beside `N-resolved.wnt`.
pub fn write_to(folder: &Path, comparison: &Comparison, seed: u64, count: u64) -> Result<()> {
    let cases = (0..).map(|number| source::random(&comparison.shapes, seed, number).1);
    let accepted = cases.filter_map(|case| match comparison.expected(&case) {
        Answer::Accepted(rows) => Some((case.form, encode(&rows))),
        _ => None,
    });
    for (number, (form, resolved)) in (0..count).zip(accepted) {
        write(folder.join(format!("{number}.wnt")), form)?;
        write(folder.join(format!("{number}-resolved.wnt")), resolved)?;
    }
    Ok(())
}
