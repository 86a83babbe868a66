//! The comparison must be able to fail: deliberate changes on either side, each of which a run has to catch.

use crate::compare::{Case, Comparison, Subject};
use crate::library;
use crate::oracle::{CRATE, Oracle, Resolve};
use crate::reduce;
use crate::rows::decode;
use crate::shapes::Shapes;
use crate::source::{self, Stage};

mod answers;

include!(concat!(env!("OUT_DIR"), "/planted.rs"));

/// How many random forms a change may survive.
const PATIENCE: u64 = 300_000;

/// Runs every change and prints a table; answers whether each was caught.
pub fn run(seed: u64) -> bool {
    std::panic::set_hook(Box::new(|_| {}));
    let fixed = source::fixed(&Shapes::new());
    println!("| side | change | caught by | rows of the smallest form |\n|---|---|---|---|");
    let mut survivors = 0;
    for (name, resolve) in COPIES {
        let comparison = Comparison::new(Oracle::new(*resolve), library::resolve);
        survivors += u32::from(!is_caught("crate", name, &comparison, &fixed, seed));
    }
    for (name, subject) in answers::CHANGES {
        let comparison = Comparison::new(Oracle::new(CRATE), *subject as Subject);
        survivors += u32::from(!is_caught("library", name, &comparison, &fixed, seed));
    }
    let planted = COPIES.len() + answers::CHANGES.len();
    println!("{planted} changes planted, {survivors} not caught");
    survivors == 0
}

fn is_caught(side: &str, name: &str, comparison: &Comparison, fixed: &[(Stage, Case)], seed: u64) -> bool {
    let random = (0..PATIENCE).map(|number| source::random(&comparison.shapes, seed, number));
    let mut cases = fixed.iter().cloned().chain(random);
    match cases.find(|(_, case)| comparison.differs(case)) {
        Some((stage, case)) => {
            let small = reduce::reduce(comparison, &case);
            println!("| {side} | {name} | {stage:?} | {} |", decode(&small.form).len());
            true
        }
        None => {
            println!("| {side} | {name} | NOT CAUGHT | |");
            false
        }
    }
}
