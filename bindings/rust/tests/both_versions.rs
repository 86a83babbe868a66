//! The runs that tools/runs_with.py writes, through the wrapper: P1 to P10 in both versions, both sides of each limit of
//! version 2, areas that are too small, and conversions.
//!
//! A run begins with a name of sixteen bytes and four words, little endian: the length of the form, and of the output;
//! the version whose area is lent; and 0 to resolve the form, or the version to convert it to. The form follows.

use std::fs;
use wnt::{convert, resolve_into_with, Refusal, Version, WorkingArea};

/// What the output is filled with before a run.
const FILLED: u8 = 165;

fn take<'a>(rest: &mut &'a [u8], count: usize) -> &'a [u8] {
    let (front, behind) = rest.split_at(count);
    *rest = behind;
    front
}

fn take_word(rest: &mut &[u8]) -> usize {
    take(rest, 4).iter().rev().fold(0, |word, byte| 256 * word + usize::from(*byte))
}

fn sum_of(out: &[u8]) -> u32 {
    out.iter().fold(0, |sum: u32, byte| sum.wrapping_mul(31).wrapping_add(u32::from(*byte)))
}

fn version(number: usize) -> Version {
    if number == 1 {
        Version::One
    } else {
        Version::Two
    }
}

fn numbers(answer: Result<usize, Refusal>) -> (u32, u32) {
    answer.map_or_else(|refusal| (refusal.number(), refusal.place()), |rows| (0, rows as u32))
}

/// The name of the next run and its answer, with the sum over the output where a form is resolved.
fn run(rest: &mut &[u8]) -> (String, (u32, u32), Option<u32>) {
    let name = String::from_utf8_lossy(take(rest, 16)).into_owned();
    let (form_length, out_length, lent, to) = (take_word(rest), take_word(rest), take_word(rest), take_word(rest));
    let form = take(rest, form_length);
    if to > 0 {
        let rows = |new: Vec<u8>| (new.len() - version(to).header_size()) / wnt::ROW_SIZE;
        return (name, numbers(convert(form, version(to)).map(rows)), None);
    }
    let mut out = vec![FILLED; out_length];
    let answer = resolve_into_with(form, &mut out, &mut WorkingArea::new(version(lent)));
    (name, numbers(answer), Some(sum_of(&out)))
}

/// Whether this is a conversion that the wrapper cannot ask for, since it makes the output itself and has a type of versions.
fn is_left_out(name: &str) -> bool {
    matches!(name.trim_end(), "c: a byte short" | "c: to version 3")
}

#[test]
fn the_runs_give_what_is_stored() {
    let input = fs::read("tests/data/both-versions").expect("the repository has the runs");
    let stored = fs::read_to_string("tests/data/both-versions.answers").expect("the repository has their answers");
    let mut rest = &input[..];
    for line in stored.lines() {
        let (name, (number, place), sum) = run(&mut rest);
        let words: Vec<&str> = line[16..].split_whitespace().collect();
        assert_eq!(name, line[..16]);
        if !is_left_out(&name) {
            assert_eq!([number.to_string(), place.to_string()], words[..2], "{name}");
            assert!(sum.is_none_or(|sum| sum.to_string() == words[2]), "{name}");
        }
    }
    assert!(rest.is_empty());
}
