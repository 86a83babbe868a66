//! Copies of our answers, each with one deliberate change made to what `wnt_resolve` returned and wrote.

use crate::library::resolve;
use crate::rows::{
    CLOSE, DECL, EXPORT, FIELD, FIRST, FIRST_INSERTED, HEADER, OPEN, REF, ROW, Row, decode, encode, output_size,
};
use crate::shapes::EXPORT_FIELD;

pub const CHANGES: &[(&str, fn(&[u8], &mut [u8]) -> u64)] =
    &[
        ("refuses everything", |_, _| 4 << 32),
        ("copies its input", copied),
        ("number 0 everywhere", |form, out| {
            with_rows(form, out, |row| {
                if row.code == REF {
                    row.x = 0
                }
            })
        }),
        ("a reference keeps its count of PATH rows", keeps_paths),
        ("names of inserted fields count from 1", |form, out| {
            with_rows(form, out, |row| row.x += u32::from(is_inserted(row)))
        }),
        ("the DECL of an inserted field has no place", |form, out| {
            with_rows(form, out, |row| {
                if is_inserted(row) {
                    row.z = 0
                }
            })
        }),
        ("an inserted EXPORT has a place", |form, out| {
            with_rows(form, out, |row| {
                if row.code == EXPORT {
                    row.z = 1
                }
            })
        }),
        ("a FIELD row loses its place", |form, out| {
            with_rows(form, out, |row| {
                if row.code == FIELD {
                    row.z = 0
                }
            })
        }),
        ("the row count of the answer is one more", |form, out| {
            let answer = resolve(form, out);
            answer + u64::from(answer >> 32 == 0)
        }),
        ("the row count of the header is one more", |form, out| {
            let answer = resolve(form, out);
            if answer >> 32 == 0 {
                out[6] = out[6].wrapping_add(1);
            }
            answer
        }),
        ("the version of the output is 2", |form, out| {
            let answer = resolve(form, out);
            if answer >> 32 == 0 {
                out[3] = 2;
            }
            answer
        }),
        ("the rest of the output is not zeroed", tail_kept),
        ("a refusal from 6 on leaves the output", |form, out| kept_when(form, out, 6..=12)),
        ("a refusal up to 5 zeroes the output", |form, out| {
            let answer = resolve(form, out);
            if (1..=5).contains(&(answer >> 32)) {
                out.fill(0);
            }
            answer
        }),
        ("a byte beyond is changed", |form, out| {
            let answer = resolve(form, out);
            let end = output_size(decode(form).len());
            if let Some(byte) = out.get_mut(end) {
                *byte ^= 1;
            }
            answer
        }),
        ("the place of refusal 4 is one more", |form, out| moved(form, out, 4)),
        ("the place of refusal 5 is one more", |form, out| moved(form, out, 5)),
        ("the place of refusal 6 is one more", |form, out| moved(form, out, 6)),
        ("the place of refusal 9 is one more", |form, out| moved(form, out, 9)),
        ("the place of refusal 12 is one more", |form, out| moved(form, out, 12)),
        ("refusal 10 is called 11", |form, out| renamed(form, out, 10, 11)),
        ("refusal 8 is called 9", |form, out| renamed(form, out, 8, 9)),
        ("refusal 2 comes before 1", |form, out| renamed(form, out, 1, 2)),
        ("31 scopes are the limit", |form, out| if depth(form) == 32 { 5 << 32 } else { resolve(form, out) }),
        ("1,022 rows are the limit", |form, out| {
            if form.len() == HEADER + ROW * FIRST.rows { 2 << 32 } else { resolve(form, out) }
        }),
        ("of an exported type a lone reference is the ascribed type's", lone_type),
        ("a FIELD row loses that there is an ascribed type", |form, out| {
            with_rows(form, out, |row| {
                if row.code == FIELD && row.b == EXPORT_FIELD {
                    row.e = 0
                }
            })
        }),
        ("e of an export may be 2", |form, out| {
            let mut rows = decode(form);
            let exports = rows.iter_mut().filter(|row| row.code == FIELD && row.b == EXPORT_FIELD && row.e == 2);
            exports.for_each(|row| row.e = 1);
            resolve(&[&form[..form.len().min(HEADER)], &encode(&rows)[HEADER..]].concat(), out)
        }),
    ];

fn is_inserted(row: &Row) -> bool {
    row.code == DECL && row.x >= FIRST_INSERTED
}

/// The library's answer with each row it wrote changed.
fn with_rows(form: &[u8], out: &mut [u8], change: fn(&mut Row)) -> u64 {
    let answer = resolve(form, out);
    if answer >> 32 == 0 {
        let end = HEADER + ROW * answer as usize;
        let mut rows = decode(&out[..end]);
        rows.iter_mut().for_each(change);
        out[..end].copy_from_slice(&encode(&rows));
    }
    answer
}

fn copied(form: &[u8], out: &mut [u8]) -> u64 {
    let answer = resolve(form, out);
    if answer >> 32 != 0 {
        return answer;
    }
    out[..form.len()].copy_from_slice(form);
    decode(form).len() as u64
}

/// Each reference of the output takes the y of the reference of the input with the same place.
fn keeps_paths(form: &[u8], out: &mut [u8]) -> u64 {
    let answer = resolve(form, out);
    if answer >> 32 == 0 {
        let end = HEADER + ROW * answer as usize;
        let input = decode(form);
        let mut rows = decode(&out[..end]);
        for row in rows.iter_mut().filter(|row| row.code == REF) {
            let same = |other: &&Row| other.code == REF && (other.b, other.z) == (row.b, row.z);
            row.y = input.iter().find(same).map_or(0, |other| other.y);
        }
        out[..end].copy_from_slice(&encode(&rows));
    }
    answer
}

/// The first exported type with an ascribed type and one reference without PATHs is refused behind it.
fn lone_type(form: &[u8], out: &mut [u8]) -> u64 {
    let rows = decode(form);
    let is_lone = |part: &[Row]| {
        let export = (part[0].code, part[0].b, part[0].e) == (FIELD, EXPORT_FIELD, 1);
        let of_type = (part[1].code, part[1].b, part[2].code, part[2].y) == (DECL, 9, REF, 0);
        export && of_type && part[3].code != REF
    };
    let before = out.to_vec();
    let answer = resolve(form, out);
    match rows.windows(4).position(is_lone) {
        Some(at) if !(1..=5).contains(&(answer >> 32)) => {
            out.copy_from_slice(&before);
            (4 << 32) | (at as u64 + 3)
        }
        _ => answer,
    }
}

fn tail_kept(form: &[u8], out: &mut [u8]) -> u64 {
    let before = out.to_vec();
    let answer = resolve(form, out);
    if answer >> 32 == 0 {
        let end = HEADER + ROW * answer as usize;
        out[end..].copy_from_slice(&before[end..]);
    }
    answer
}

fn kept_when(form: &[u8], out: &mut [u8], numbers: std::ops::RangeInclusive<u64>) -> u64 {
    let before = out.to_vec();
    let answer = resolve(form, out);
    if numbers.contains(&(answer >> 32)) {
        out.copy_from_slice(&before);
    }
    answer
}

fn moved(form: &[u8], out: &mut [u8], number: u64) -> u64 {
    let answer = resolve(form, out);
    answer.wrapping_add(u64::from(answer >> 32 == number))
}

fn renamed(form: &[u8], out: &mut [u8], number: u64, other: u64) -> u64 {
    let answer = resolve(form, out);
    if answer >> 32 == number { (other << 32) | (answer & 0xffff_ffff) } else { answer }
}

/// The most scopes that are open at once.
fn depth(form: &[u8]) -> usize {
    let (mut open, mut most) = (0_usize, 0);
    for row in decode(form) {
        match row.code {
            OPEN => open += 1,
            CLOSE => open = open.saturating_sub(1),
            _ => {}
        }
        most = most.max(open);
    }
    most
}
