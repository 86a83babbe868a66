//! Runs the proved resolver and the resolver of the crate wast 262.0.0 side by side.

mod back;
mod batches;
mod bench;
mod builds;
mod cases;
mod chance;
mod claims;
mod compare;
mod convert;
mod damage;
mod generate;
mod lent;
mod library;
mod meant;
mod members;
mod mend;
mod moved;
mod names_back;
mod newer;
mod oracle;
mod partner;
mod recognise;
mod reduce;
mod renaming;
mod rows;
mod run;
mod samples;
#[cfg(feature = "planted")]
mod sensitivity;
mod shapes;
mod share;
mod shared;
mod sheet;
mod source;
mod spoil;
// The crate's files decide what is used of these.
#[allow(dead_code)]
mod standins;
mod sweep;
mod tally;
mod told;
mod tree;
mod vectors;
mod verify;
mod wrong;

use standins::error::Error;
use standins::{annotation, core, kw, lexer, parser};
use std::io::Write as _;
use std::path::Path;
use std::process::ExitCode;

include!(concat!(env!("OUT_DIR"), "/crate_files.rs"));

const USAGE: &str = "\
compare [--seconds N | --forms N] [--seed S]   compare on forms, for a minute if nothing is said
compare --builds N [--seed S]                  compare N pairs of builds with a comparison by document 02
compare --sensitivity [--seed S]               plant changes on both sides and show that each is caught
                                               (built with --features planted)
compare --vectors N [--seed S] [--onto FILE] > OTHER
                                               write fixed vectors of all functions; of resolving those of FILE and behind
                                               them new ones, at most N of each refusal in all
compare --renaming N [--seed S]                resolve N random forms again with other names, and compare the two
compare --bench FILE [--repetitions N] [--larger] [--least]
                                               time both sides; the picture goes to FILE as SVG. With --larger forms of
                                               version 2, with --least the least time of each form, not the median
compare --shapes FOLDER                        write the benchmark's largest forms of both versions, for a profiler
compare --samples FOLDER [--forms N]           write accepted random forms and their outputs, for readings.py
compare --lent N [--seed S]                    resolve N forms of both versions in areas that are lent, and compare
compare --newer N [--seed S]                   resolve N forms of version 2 under rule set 1, and the same under rule set 0
compare --newer-reading N [--seed S]           read N forms under rule set 1 without the library: what is stated, and
                                               deliberate errors in the reading, each of which a form must show
compare --convert N [--seed S]                 convert N forms, and compare with a converter written for it
compare --mend N [--seed S]                    mend N spoilt forms, and compare with a mender written for it
compare --meant N [--seed S]                   ask what the names of N members mean, and compare with a second reading
compare --moved N [--seed S]                   list the moved numbers of N forms, and compare with a second reading
compare --moved-with N [--seed S]              the same for forms of both versions and rule sets, in areas that are lent
compare --sheet N [--seed S]                   hold a binding sheet against N forms, and compare with a second reading
compare --sheet-with N [--seed S]              the same for forms of both versions and rule sets, in areas that are lent
compare --check N [--seed S]                   check N claimed outputs, and compare with a checker written for it
compare --check-with N [--seed S]              the same for inputs of both versions and rule sets, in areas that are lent
compare --check-bench N                        time checking beside resolving, the shortest of N calls each
compare --moved-bench N                        time listing moved numbers beside resolving, the shortest of N calls each
compare --share N [--seed S]                   resolve N forms with fewer aliases, and check and count them
compare --share-with N [--seed S]              the same for forms of both versions and rule sets, in areas that are lent
compare --told N [--seed S]                    compare on N forms what refusals tell besides
compare --unresolve N [--seed S]               send N outputs of random forms back to names and round, and damaged ones
compare --unresolve-with N [--seed S]          the same for outputs of both versions and rule sets, in areas that are lent
compare --members N [--seed S]                 resolve N members inside preludes, and compare on trees that hold both
compare --members-with N [--seed S]            the same for both versions and rule sets, in areas that are lent
compare --batches N [--seed S]                 the same for N batches, and each member again among other neighbours
compare --batches-with N [--seed S]            the same for both versions and rule sets, in areas that are lent";

/// The value after `--name`, read as a number.
fn number(arguments: &[String], name: &str) -> Option<u64> {
    value(arguments, name).map(|text| {
        text.parse().unwrap_or_else(|_| {
            eprintln!("{name} wants a number, not {text}\n{USAGE}");
            std::process::exit(2)
        })
    })
}

fn value<'a>(arguments: &'a [String], name: &str) -> Option<&'a str> {
    let at = arguments.iter().position(|argument| argument == name)?;
    arguments.get(at + 1).map(String::as_str)
}

fn comparison() -> compare::Comparison {
    compare::Comparison::new(oracle::Oracle::new(oracle::CRATE), library::resolve)
}

fn compare_forms(arguments: &[String]) -> bool {
    let forms = number(arguments, "--forms").map(run::Until::Forms);
    let seconds = run::Until::Seconds(number(arguments, "--seconds").unwrap_or(60));
    run::run(&comparison(), number(arguments, "--seed").unwrap_or(1), forms.unwrap_or(seconds))
}

#[cfg(feature = "planted")]
fn sensitivity(seed: u64) -> bool {
    sensitivity::run(seed)
}

#[cfg(not(feature = "planted"))]
fn sensitivity(_seed: u64) -> bool {
    eprintln!("the planted changes are compiled in with --features planted");
    false
}

fn write_vectors(arguments: &[String], count: u64) -> bool {
    let kept = value(arguments, "--onto").map_or(Ok(Vec::new()), std::fs::read);
    let Ok(kept) = kept else {
        eprintln!("the vectors to keep cannot be read");
        return false;
    };
    let (comparison, seed) = (comparison(), number(arguments, "--seed").unwrap_or(1));
    let mut sample = vectors::Sample::default();
    let tally = vectors::resolved::vectors(&comparison, &kept, count as usize, seed, &mut sample);
    lent::vectors(&comparison, seed, &mut sample);
    convert::vectors(seed, &mut sample);
    moved::vectors(&comparison, seed, &mut sample);
    sheet::vectors(&comparison, seed, &mut sample);
    verify::vectors(&comparison, seed, &mut sample);
    builds::vectors(seed, &mut sample);
    names_back::vectors(&comparison, seed, &mut sample);
    spoil::vectors(seed, &mut sample);
    members::vectors(&comparison, seed, &mut sample);
    meant::vectors(seed, &mut sample);
    share::vectors(&comparison, seed, &mut sample);
    batches::vectors(&comparison, seed, &mut sample);
    eprintln!("{} new vectors of resolving\n{}\n{}", tally.forms, tally.summary(), sample.summary());
    std::io::stdout().write_all(sample.bytes()).is_ok()
}

fn bench(arguments: &[String], file: &str) -> bool {
    let has = |name: &str| arguments.iter().any(|argument| argument == name);
    let bench = bench::Bench {
        version: if has("--larger") { rows::SECOND } else { rows::FIRST },
        repetitions: number(arguments, "--repetitions").unwrap_or(1001) as usize,
        counted: if has("--least") { bench::least } else { bench::median },
    };
    let picture = bench.run();
    is_written(file, std::fs::write(file, picture))
}

/// Whether a file or folder could be written; if not, why.
fn is_written(path: &str, written: std::io::Result<()>) -> bool {
    if let Err(problem) = &written {
        eprintln!("{path}: {problem}");
    }
    written.is_ok()
}

fn write_shapes(folder: &str) -> bool {
    is_written(folder, bench::write_forms(Path::new(folder)))
}

fn write_samples(arguments: &[String], folder: &str) -> bool {
    let count = number(arguments, "--forms").unwrap_or(1000);
    let seed = number(arguments, "--seed").unwrap_or(1);
    is_written(folder, samples::write_to(Path::new(folder), &comparison(), seed, count))
}

/// A run with a seed, over a number of forms, pairs or outputs; it answers whether there was no difference.
type Run = fn(&compare::Comparison, u64, u64) -> bool;

/// The runs by their names.
const RUNS: &[(&str, Run)] = &[
    ("--renaming", renaming::run),
    ("--lent", lent::run),
    ("--newer", newer::run),
    ("--newer-reading", newer::read),
    ("--convert", |_, seed, forms| convert::run(seed, forms)),
    ("--mend", |_, seed, forms| spoil::run(seed, forms)),
    ("--meant", |_, seed, pairs| meant::run(seed, pairs)),
    ("--moved", |comparison, seed, forms| moved::run(comparison, seed, forms, false)),
    ("--moved-with", |comparison, seed, forms| moved::run(comparison, seed, forms, true)),
    ("--sheet", |comparison, seed, forms| sheet::run(comparison, seed, forms, false)),
    ("--sheet-with", |comparison, seed, forms| sheet::run(comparison, seed, forms, true)),
    ("--check", |comparison, seed, pairs| verify::run(comparison, seed, pairs, false)),
    ("--check-with", |comparison, seed, pairs| verify::run(comparison, seed, pairs, true)),
    ("--unresolve", |comparison, seed, outputs| names_back::run(comparison, seed, outputs, false)),
    ("--unresolve-with", |comparison, seed, outputs| names_back::run(comparison, seed, outputs, true)),
    ("--share", |comparison, seed, forms| share::run(comparison, seed, forms, false)),
    ("--share-with", |comparison, seed, forms| share::run(comparison, seed, forms, true)),
    ("--told", told::run),
    ("--members", |comparison, seed, pairs| members::run(comparison, seed, pairs, false)),
    ("--members-with", |comparison, seed, pairs| members::run(comparison, seed, pairs, true)),
    ("--batches", |comparison, seed, batches| batches::run(comparison, seed, batches, false)),
    ("--batches-with", |comparison, seed, batches| batches::run(comparison, seed, batches, true)),
    ("--builds", |_, seed, pairs| builds::run(pairs, seed)),
];

/// The run that is asked for, with its count.
fn asked_run(arguments: &[String]) -> Option<(Run, u64)> {
    RUNS.iter().find_map(|(name, run)| Some((*run, number(arguments, name)?)))
}

fn main() -> ExitCode {
    let arguments: Vec<String> = std::env::args().skip(1).collect();
    let has = |name: &str| arguments.iter().any(|argument| argument == name);
    let done = if let Some((run, count)) = asked_run(&arguments) {
        run(&comparison(), number(&arguments, "--seed").unwrap_or(1), count)
    } else if let Some(file) = value(&arguments, "--bench") {
        bench(&arguments, file)
    } else if let Some(folder) = value(&arguments, "--shapes") {
        write_shapes(folder)
    } else if let Some(folder) = value(&arguments, "--samples") {
        write_samples(&arguments, folder)
    } else if let Some(count) = number(&arguments, "--vectors") {
        write_vectors(&arguments, count)
    } else if let Some(repetitions) = number(&arguments, "--check-bench") {
        bench::check(repetitions as usize);
        true
    } else if let Some(repetitions) = number(&arguments, "--moved-bench") {
        bench::moved(repetitions as usize);
        true
    } else if has("--sensitivity") {
        sensitivity(number(&arguments, "--seed").unwrap_or(1))
    } else if arguments.is_empty() || has("--seconds") || has("--forms") || has("--seed") {
        compare_forms(&arguments)
    } else {
        eprintln!("{USAGE}");
        false
    };
    if done { ExitCode::SUCCESS } else { ExitCode::FAILURE }
}
