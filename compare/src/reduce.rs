//! Makes a form that shows a difference as small as it gets, and prints it.

use crate::compare::{Case, Comparison, Outcome};
use crate::rows::{CLOSE, HEADER, OPEN, REF, ROW, Row, decode, encode};

/// The smallest case found that still shows a difference.
pub fn reduce(comparison: &Comparison, case: &Case) -> Case {
    let mut best = case.clone();
    if encode(&decode(&case.form)) != case.form {
        return best;
    }
    loop {
        let before = decode(&best.form);
        drop_rows(comparison, &mut best);
        unwrap_scopes(comparison, &mut best);
        shorten_paths(comparison, &mut best);
        simplify_rows(comparison, &mut best);
        if decode(&best.form) == before {
            return best;
        }
    }
}

fn keep_if_differs(comparison: &Comparison, best: &mut Case, rows: &[Row]) -> bool {
    let smaller = best.with_form(encode(rows));
    let tries = (0..4).map(|more| Case { choice: best.choice.wrapping_add(more), ..smaller.clone() });
    match tries.into_iter().find(|case| comparison.differs(case)) {
        Some(case) => {
            *best = case;
            true
        }
        None => false,
    }
}

/// Runs of rows go, long ones first.
fn drop_rows(comparison: &Comparison, best: &mut Case) {
    let mut length = decode(&best.form).len();
    while length > 0 {
        let mut at = 0;
        while at + length <= decode(&best.form).len() {
            let mut rows = decode(&best.form);
            rows.drain(at..at + length);
            if !keep_if_differs(comparison, best, &rows) {
                at += 1;
            }
        }
        length = if length > 16 { length / 2 } else { length - 1 };
    }
}

/// An inner scope goes and what is in it stays: its field's FIELD and DECL, its OPEN and its CLOSE.
fn unwrap_scopes(comparison: &Comparison, best: &mut Case) {
    let mut at = 3;
    while at < decode(&best.form).len() {
        let mut rows = decode(&best.form);
        if let Some(close) = matching_close(&rows, at) {
            rows.remove(close);
            rows.drain(at - 2..=at);
            keep_if_differs(comparison, best, &rows);
        }
        at += 1;
    }
}

/// The CLOSE of the scope that the row at `open` opens, if it opens one.
fn matching_close(rows: &[Row], open: usize) -> Option<usize> {
    let mut depth = 0;
    for (at, row) in rows.iter().enumerate().skip(open) {
        match row.code {
            OPEN => depth += 1,
            CLOSE => depth -= 1,
            _ => {}
        }
        if depth == 0 {
            return (at > open).then_some(at);
        }
    }
    None
}

/// References lose PATH rows, half of them or one at a time, and the count of them.
fn shorten_paths(comparison: &Comparison, best: &mut Case) {
    let mut at = 0;
    while at < decode(&best.form).len() {
        let row = decode(&best.form)[at];
        let paths = if row.code == REF { row.y as usize } else { 0 };
        let shorter = [paths / 2, paths.min(1)].into_iter().any(|fewer| drop_paths(comparison, best, at, fewer));
        at += usize::from(!shorter);
    }
}

fn drop_paths(comparison: &Comparison, best: &mut Case, at: usize, fewer: usize) -> bool {
    let mut rows = decode(&best.form);
    if fewer == 0 || at + fewer >= rows.len() {
        return false;
    }
    rows.drain(at + 1..=at + fewer);
    rows[at].y -= fewer as u32;
    keep_if_differs(comparison, best, &rows)
}

/// Numbers become small, except that places stay apart.
fn simplify_rows(comparison: &Comparison, best: &mut Case) {
    for at in 0..decode(&best.form).len() {
        let row = decode(&best.form)[at];
        let place = 10 + at as u32;
        let simpler = [
            Row { z: if row.z == 0 { 0 } else { place }, ..row },
            Row { x: row.x.min(1), ..row },
            Row { x: row.x.min(2), ..row },
            Row { y: row.y.min(1), ..row },
        ];
        for row in simpler {
            let mut rows = decode(&best.form);
            if rows[at] != row {
                rows[at] = row;
                keep_if_differs(comparison, best, &rows);
            }
        }
    }
}

/// The case and both outcomes, as rows where they are rows.
pub fn describe(comparison: &Comparison, case: &Case) -> String {
    let Some(difference) = comparison.check(case).1 else {
        return "no difference".to_string();
    };
    let form = if encode(&decode(&case.form)) == case.form {
        list(&decode(&case.form))
    } else {
        format!("bytes {:?}", case.form)
    };
    format!(
        "form: {form}\nlent: {} bytes\nexpected: {}\nfound:    {}",
        case.out_len,
        outcome(&difference.expected),
        outcome(&difference.found),
    )
}

fn list(rows: &[Row]) -> String {
    let rows: Vec<String> = rows.iter().map(Row::to_string).collect();
    rows.join(" ")
}

fn outcome(outcome: &Outcome) -> String {
    let (number, low) = (outcome.packed >> 32, outcome.packed as u32);
    if number != 0 {
        return format!("refusal {number} at {low}, output {}", digest(&outcome.out));
    }
    let end = (HEADER + ROW * low as usize).min(outcome.out.len());
    format!("{low} rows {}, output {}", list(&decode(&outcome.out[..end])), digest(&outcome.out))
}

/// A short mark by which two outputs are told apart (FNV-1a).
fn digest(bytes: &[u8]) -> String {
    let mark = bytes
        .iter()
        .fold(0xcbf2_9ce4_8422_2325_u64, |mark, byte| (mark ^ u64::from(*byte)).wrapping_mul(0x100_0000_01b3));
    format!("#{mark:016x}")
}
