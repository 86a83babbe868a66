//! Times `wnt_resolve`, or for larger forms `wnt_resolve_with`, and the crate's `resolve` side by side, and writes a table
//! and a picture.
//!
//! `wnt_resolve` reads and checks the bytes, resolves and writes; its output is not cleared between calls, since
//! the call itself zeroes what it leaves. The crate's time is that of `resolve` alone on a tree that stands ready.

use crate::gensym;
use crate::lent::Lender;
use crate::library;
use crate::oracle::CRATE;
use crate::recognise::recognise_as;
use crate::rows::{FIRST, HEADER, ROW, Row, SECOND, Version, encode, output_size};
use crate::shapes::Shapes;
use crate::tree::{self, Texts};
use crate::verify::{LINKS, SLOTS};
use std::path::Path;
use std::time::{Duration, Instant};

mod forms;
mod picture;

use forms::{FORMS, MakeForm};

/// The sizes in rows of the picture, for each version; the table of version 1 is about the last.
fn sizes(version: Version) -> [usize; 6] {
    if version == FIRST { [64, 192, 384, 576, 768, 1023] } else { [1023, 2047, 4095, 8191, 12_287, 16_383] }
}

/// Which of a form's times counts: the median, or the least, which other work on the machine weighs on less.
pub type Counted = fn(Vec<Duration>) -> f64;

/// Times for one form, in nanoseconds.
pub struct Times {
    pub rows: usize,
    pub ours: f64,
    pub theirs: f64,
}

pub struct Series {
    pub name: &'static str,
    pub times: Vec<Times>,
}

/// Writes the largest form of every shape into a folder, as a form of version 1, and behind it those of version 2.
pub fn write_forms(folder: &Path) -> std::io::Result<()> {
    for (name, make) in FORMS {
        let name = name.replace(',', "").replace(' ', "-");
        for version in [FIRST, SECOND] {
            let file = if version == FIRST { format!("{name}.wnt") } else { format!("{name}-2.wnt") };
            std::fs::write(folder.join(file), version.encode(&make(version.rows)))?;
        }
    }
    Ok(())
}

/// A run: so many repetitions of every shape at every size of the version.
#[derive(Clone, Copy)]
pub struct Bench {
    pub version: Version,
    pub repetitions: usize,
    pub counted: Counted,
}

impl Bench {
    /// Runs every shape, prints the table, answers the picture.
    pub fn run(self) -> String {
        let shapes = Shapes::new();
        let series: Vec<Series> = FORMS.iter().map(|(name, make)| self.series(&shapes, name, *make)).collect();
        println!("{}", if self.version == FIRST { table(&series) } else { growth(&series) });
        picture::draw(&series, if self.version == FIRST { "wnt_resolve" } else { "wnt_resolve_with" })
    }

    fn series(self, shapes: &Shapes, name: &'static str, make: MakeForm) -> Series {
        let times = sizes(self.version).iter().map(|size| self.measure(shapes, &make(*size))).collect();
        eprintln!("measured: {name}");
        Series { name, times }
    }

    fn measure(self, shapes: &Shapes, rows: &[Row]) -> Times {
        let form = self.version.encode(rows);
        let mut out = vec![0; self.version.output_size(rows.len())];
        recognise_as(self.version, shapes, &form, out.len()).expect("benchmark forms are well-formed");
        let mut lender = Lender::new();
        let mut resolve = || match self.version {
            FIRST => library::resolve(&form, &mut out),
            version => library::resolve_with(&form, &mut out, &mut lender.areas_of(version)),
        };
        assert_eq!(resolve() >> 32, 0, "benchmark forms are accepted");
        let texts = Texts::of(rows);
        let (mut ours, mut theirs) = (Vec::new(), Vec::new());
        for _ in 0..self.repetitions {
            theirs.push(time_crate(rows, &texts));
            let start = Instant::now();
            resolve();
            ours.push(start.elapsed());
        }
        Times { rows: rows.len(), ours: (self.counted)(ours), theirs: (self.counted)(theirs) }
    }
}

fn time_crate(rows: &[Row], texts: &Texts) -> Duration {
    let mut component = tree::component(rows, texts, 0);
    gensym::reset();
    let start = Instant::now();
    let done = CRATE(&mut component);
    let time = start.elapsed();
    assert!(done.is_ok(), "benchmark forms are accepted");
    time
}

pub fn median(mut times: Vec<Duration>) -> f64 {
    times.sort();
    times[times.len() / 2].as_nanos() as f64
}

pub fn least(times: Vec<Duration>) -> f64 {
    times.iter().min().expect("there is a repetition").as_nanos() as f64
}

fn table(series: &[Series]) -> String {
    let mut text =
        String::from("| shape | rows | wnt_resolve | the crate's resolve | ratio |\n|---|---|---|---|---|\n");
    for one in series {
        let Some(Times { rows, ours, theirs }) = one.times.last() else { continue };
        let (name, ratio) = (one.name, ours / theirs);
        text.push_str(&format!("| {name} | {rows} | {:.1} | {:.1} | {ratio:.2} |\n", ours / 1e3, theirs / 1e3));
    }
    text
}

/// Nanoseconds a row at each size, ours and the crate's, and the ratio at the last.
fn growth(series: &[Series]) -> String {
    let mut text = String::from("| shape | side |");
    series[0].times.iter().for_each(|times| text.push_str(&format!(" {} |", times.rows)));
    text.push_str(" ratio |\n|---|---|---|---|---|---|---|---|---|\n");
    for Series { name, times } in series {
        let a_row = |of: fn(&Times) -> f64| -> String {
            times.iter().map(|each| format!(" {:.1} |", of(each) / each.rows as f64)).collect()
        };
        let last = times.last().expect("there are sizes");
        text.push_str(&format!("| {name} | ours |{} {:.2} |\n", a_row(|each| each.ours), last.ours / last.theirs));
        text.push_str(&format!("| | the crate |{} |\n", a_row(|each| each.theirs)));
    }
    text
}

/// Prints what checking an own output costs beside resolving, on the largest form of every shape: the shortest of so many
/// calls each, one of the two after the other.
pub fn check(repetitions: usize) {
    println!("| shape | rows of both forms | wnt_resolve | wnt_check | ratio |\n|---|---|---|---|---|");
    for (name, make) in FORMS {
        let form = encode(&make(FIRST.rows));
        let mut out = vec![0; output_size(form.len() / ROW)];
        let rows = library::resolve(&form, &mut out) as usize;
        let claim = out[..HEADER + ROW * rows].to_vec();
        let (mut table, mut index) = (vec![[0; 6]; SLOTS], vec![0; LINKS]);
        let (mut resolving, mut checking) = (Duration::MAX, Duration::MAX);
        for _ in 0..repetitions {
            let start = Instant::now();
            library::resolve(&form, &mut out);
            resolving = resolving.min(start.elapsed());
            let start = Instant::now();
            assert_eq!(library::check(&form, &claim, &mut table, &mut index), 0, "an own output is accepted");
            checking = checking.min(start.elapsed());
        }
        let (ours, check) = (resolving.as_nanos() as f64 / 1e3, checking.as_nanos() as f64 / 1e3);
        let both = form.len() / ROW + rows;
        println!("| {name} | {both} | {ours:.1} | {check:.1} | {:.2} |", check / ours);
    }
}

/// Prints what listing moved numbers costs beside resolving, in the same way.
pub fn moved(repetitions: usize) {
    println!("| shape | rows | wnt_resolve | wnt_moved | ratio |\n|---|---|---|---|---|");
    for (name, make) in FORMS {
        let form = encode(&make(FIRST.rows));
        let rows = form.len() / ROW;
        let mut out = vec![0; output_size(rows)];
        let (mut moved, mut apart) = (vec![0; 16 * rows], vec![0; 12 * rows]);
        let (mut resolving, mut listing) = (Duration::MAX, Duration::MAX);
        for _ in 0..repetitions {
            let start = Instant::now();
            library::resolve(&form, &mut out);
            resolving = resolving.min(start.elapsed());
            let start = Instant::now();
            library::moved(&form, &mut out, &mut moved, &mut apart);
            listing = listing.min(start.elapsed());
        }
        let (ours, list) = (resolving.as_nanos() as f64 / 1e3, listing.as_nanos() as f64 / 1e3);
        println!("| {name} | {rows} | {ours:.1} | {list:.1} | {:.2} |", list / ours);
    }
}
