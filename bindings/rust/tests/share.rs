//! Fewer aliases, as seen through the wrapper.

use wnt::{check, form_size, out_size, resolve, share, share_into, Refusal, Verdict, CHECK_LINKS, CHECK_SLOTS};

/// A row's parts: code, b, e, x, y, z.
type Row = [u32; 6];

const ROOT: Row = [7, 0, 0, 0, 0, 0];
const CLOSE: Row = [8, 0, 0, 0, 0, 0];

fn form(rows: &[Row]) -> Vec<u8> {
    let mut out = b"WNT\x01\x00\x00".to_vec();
    out.extend((rows.len() as u16).to_le_bytes());
    for [code, b, e, x, y, z] in rows {
        out.extend([*code as u8, *b as u8]);
        out.extend((*e as u16).to_le_bytes());
        for part in [x, y, z] {
            out.extend(part.to_le_bytes());
        }
    }
    out
}

/// A type 1, and a component with `count` types that each refer to it.
fn naming(count: u32) -> Vec<u8> {
    let mut rows = vec![ROOT, [1, 12, 0, 0, 0, 1], [2, 9, 0, 1, 0, 2], [1, 6, 0, 0, 0, 3], [2, 11, 0, 0, 0, 4], ROOT];
    for at in 0..count {
        rows.extend([[1, 12, 0, 0, 0, 10], [2, 9, 0, 7 + at, 0, 11], [3, 9, 1, 1, 0, 12]]);
    }
    rows.extend([CLOSE, CLOSE]);
    form(&rows)
}

/// How many rows are OUTER rows.
fn outers(form: &[u8]) -> usize {
    form[8..].chunks(16).filter(|row| row[0] == 5).count()
}

#[test]
fn forty_references_share_one_alias() {
    let input = naming(40);
    let own = resolve(&input).expect("it is accepted");
    let shared = share(&input).expect("it is accepted too");
    assert_eq!((outers(&own), outers(&shared)), (40, 1));
    assert_eq!(shared.len(), own.len() - 39 * 48);
    assert_eq!(check(&input, &shared), Ok(Verdict::Yes));
    // the alias stands before the first field that needs it, and each reference is the number 0
    assert_eq!(shared[8 + 16 * 8], 5);
    assert!(shared[8..].chunks(16).filter(|row| row[0] == 3).all(|row| row[2..8] == [0; 6]));
}

#[test]
fn what_is_shared_once_is_as_it_was() {
    assert_eq!(share(&naming(1)), resolve(&naming(1)));
}

#[test]
fn it_refuses_what_the_resolver_refuses() {
    let unknown = form(&[ROOT, [1, 12, 0, 0, 0, 1], [2, 9, 0, 1, 0, 2], [3, 9, 1, 5, 0, 3], CLOSE]);
    assert!(matches!(share(&unknown), Err(Refusal::UnknownName { place: 3, .. })));
    assert_eq!(share(b"WNT"), Err(Refusal::Header));
}

#[test]
fn an_area_that_is_too_small_is_refused() {
    let input = naming(2);
    let mut out = vec![0xa5; out_size(14)];
    let (mut table, mut index) = (vec![[7; 6]; CHECK_SLOTS - 1], vec![7; CHECK_LINKS]);
    assert_eq!(share_into(&input, &mut out, &mut table, &mut index), Err(Refusal::Room));
    assert!(out.iter().all(|byte| *byte == 0xa5));
    assert!(table.iter().all(|slot| *slot == [0; 6]) && index.iter().all(|link| *link == 0));
    let (mut table, mut index) = (vec![[7; 6]; CHECK_SLOTS + 1], vec![7; CHECK_LINKS + 1]);
    let rows = share_into(&input, &mut out, &mut table, &mut index).expect("there is room");
    assert_eq!(out[..form_size(rows)], share(&input).expect("it is accepted"));
    assert_eq!((table[CHECK_SLOTS], index[CHECK_LINKS]), ([7; 6], 7));
    assert!(table[..CHECK_SLOTS].iter().all(|slot| *slot == [0; 6]));
}
