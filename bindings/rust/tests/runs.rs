//! The runs of crates/runs_rules through the wrapper: P1 to P10, both sides of each limit, every refusal. The lines are those that
//! the proved program prints; `crates/runs_rules/src/main.rt` has the layout of its input.

use std::fs;
use wnt::resolve_into;

/// What the output is filled with before a run.
const FILLED: u8 = 165;

fn take<'a>(rest: &mut &'a [u8], count: usize) -> &'a [u8] {
    let (front, behind) = rest.split_at(count);
    *rest = behind;
    front
}

fn take_length(rest: &mut &[u8]) -> usize {
    take(rest, 4).iter().rev().fold(0, |length, byte| 256 * length + usize::from(*byte))
}

fn sum_of(out: &[u8]) -> u32 {
    out.iter().fold(0, |sum: u32, byte| sum.wrapping_mul(31).wrapping_add(u32::from(*byte)))
}

/// The name of the next run, its answer, and the sum over the output.
fn run(rest: &mut &[u8]) -> String {
    let name = String::from_utf8_lossy(take(rest, 16));
    let (form_length, out_length) = (take_length(rest), take_length(rest));
    let mut out = vec![FILLED; out_length];
    let (number, place) = match resolve_into(take(rest, form_length), &mut out) {
        Ok(rows) => (0, rows as u32),
        Err(refusal) => (refusal.number(), refusal.place()),
    };
    format!("{name} {number} {place} {}\n", sum_of(&out))
}

#[test]
fn the_runs_give_what_is_stored() {
    let input = fs::read("../../crates/runs_rules/stdin").expect("the repository has the runs");
    let stored = fs::read_to_string("../../crates/runs_rules/stdout").expect("the repository has their output");
    let (mut rest, mut lines) = (&input[..], String::new());
    while !rest.is_empty() {
        lines.push_str(&run(&mut rest));
    }
    assert_eq!(lines, stored);
}
