//! A run of the comparison: forms until the time or their number is up, or until two answers differ.

use crate::cases;
use crate::compare::{Case, Comparison};
use crate::reduce;
use crate::rows::Answer;
use crate::source::{self, Stage};
use crate::tally::Tally;
use std::time::Instant;

/// When a run ends.
#[derive(Clone, Copy)]
pub enum Until {
    Seconds(u64),
    Forms(u64),
}

/// Whether the crate answers what document 01 and docs/DIFFERENCES.md state.
pub fn stated_cases_hold(comparison: &Comparison) -> bool {
    let wrong = cases::stated().into_iter().find(|case| comparison.oracle.answer(&case.rows, 0) != case.answer);
    if let Some(case) = &wrong {
        println!("{}: the crate does not answer what is stated", case.name);
    }
    wrong.is_none()
}

/// Runs to the end and prints a summary line; answers whether there was no difference.
pub fn run(comparison: &Comparison, seed: u64, until: Until) -> bool {
    if !stated_cases_hold(comparison) {
        return false;
    }
    let start = Instant::now();
    let mut tally = Tally::default();
    let fixed = source::fixed(&comparison.shapes).into_iter();
    let random = (0..).map(|number| source::random(&comparison.shapes, seed, number));
    for (stage, case) in fixed.chain(random) {
        if is_over(until, &tally, start) {
            break;
        }
        let (answer, difference) = comparison.check(&case);
        tally.count(stage, &case, &answer);
        if !is_form(stage, &answer) {
            println!("form {} of stage {stage:?} was to be well-formed and is not", tally.forms);
            return false;
        }
        if difference.is_some() {
            report(comparison, stage, &case, tally.forms);
            return false;
        }
        if tally.forms % 100_000 == 0 {
            eprintln!("{} forms in {} s, no difference so far", tally.forms, start.elapsed().as_secs());
        }
    }
    println!("{}", tally.summary());
    println!("{} forms compared in {:.1} s, 0 differences", tally.forms, start.elapsed().as_secs_f64());
    true
}

/// Whether a stage that makes well-formed forms made one; it may be too long or too deep, or its output too short.
pub fn is_form(stage: Stage, answer: &Answer) -> bool {
    let broken = matches!(answer, Answer::Refused { number: 1 | 4, .. });
    !(broken && matches!(stage, Stage::Stated | Stage::Sweep | Stage::Random))
}

fn is_over(until: Until, tally: &Tally, start: Instant) -> bool {
    match until {
        Until::Forms(forms) => tally.forms >= forms,
        Until::Seconds(seconds) => tally.forms % 64 == 0 && start.elapsed().as_secs() >= seconds,
    }
}

fn report(comparison: &Comparison, stage: Stage, case: &Case, forms: u64) {
    let small = reduce::reduce(comparison, case);
    println!("\ndifference at form {forms} ({stage:?})\n{}", reduce::describe(comparison, &small));
}
