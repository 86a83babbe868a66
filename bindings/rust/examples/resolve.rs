//! Resolves the form IN and prints the resolved rows, or the refusal; writes the resolved form to the file OUT if one is
//! given.
//!
//! The exit status is 0 if the form was resolved and everything was written, else 1. A refused form leaves OUT alone.

use std::env;
use std::fs;
use std::io::{self, Write as _};
use std::process::ExitCode;

fn main() -> ExitCode {
    let arguments: Vec<String> = env::args().skip(1).collect();
    match &arguments[..] {
        [input] => run(input, None),
        [input, output] => run(input, Some(output)),
        _ => {
            eprintln!("usage: resolve IN [OUT]");
            ExitCode::FAILURE
        }
    }
}

fn run(input: &str, output: Option<&str>) -> ExitCode {
    match fs::read(input) {
        Ok(form) => resolve(&form, output),
        Err(problem) => fail(input, "read", problem),
    }
}

/// Resolves a form, writes the result to the file if one is given, and prints it or the refusal.
fn resolve(form: &[u8], output: Option<&str>) -> ExitCode {
    let resolved = match wnt::resolve(form) {
        Ok(resolved) => resolved,
        Err(refusal) => {
            println!("{refusal}");
            return ExitCode::FAILURE;
        }
    };
    if let Some(file) = output {
        if let Err(problem) = fs::write(file, &resolved) {
            return fail(file, "written", problem);
        }
    }
    match io::stdout().write_all(lines(&resolved[wnt::HEADER_SIZE..]).as_bytes()) {
        Ok(()) => ExitCode::SUCCESS,
        Err(problem) => fail("standard output", "written", problem),
    }
}

fn fail(file: &str, what: &str, problem: io::Error) -> ExitCode {
    eprintln!("{file} cannot be {what}: {problem}");
    ExitCode::FAILURE
}

/// The rows in words, one on each line.
fn lines(rows: &[u8]) -> String {
    let mut text = format!("accepted: {} rows\n", rows.len() / wnt::ROW_SIZE);
    text.extend(rows.chunks_exact(wnt::ROW_SIZE).map(line));
    text
}

/// A row as [code b e x y z].
fn line(row: &[u8]) -> String {
    let e = u16::from_le_bytes([row[2], row[3]]);
    let part = |at: usize| u32::from_le_bytes([row[at], row[at + 1], row[at + 2], row[at + 3]]);
    format!("[{} {} {e} {} {} {}]\n", row[0], row[1], part(4), part(8), part(12))
}
