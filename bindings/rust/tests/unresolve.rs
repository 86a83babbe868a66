//! Back to names, as seen through the wrapper: outputs that come back, bytes that are not an output, and lent buffers.

use wnt::{resolve, unresolve, unresolve_into, Refusal, MAX_FORM_SIZE, MAX_OUT_SIZE};

/// A form of these rows: code, b, e, x, y, z.
fn form(rows: &[[u32; 6]]) -> Vec<u8> {
    let mut bytes = b"WNT\x01\x00\x00".to_vec();
    bytes.extend((rows.len() as u16).to_le_bytes());
    for [code, b, e, x, y, z] in rows {
        bytes.extend([*code as u8, *b as u8]);
        bytes.extend((*e as u16).to_le_bytes());
        for part in [x, y, z] {
            bytes.extend(part.to_le_bytes());
        }
    }
    bytes
}

const OPEN: [u32; 6] = [7, 0, 0, 0, 0, 0];
const CLOSE: [u32; 6] = [8, 0, 0, 0, 0, 0];

/// Type 1 of the root, and a component inside it whose type has these rows.
fn inside(rows: &[[u32; 6]]) -> Vec<u8> {
    let mut all = vec![
        OPEN,
        [1, 12, 0, 0, 0, 0],
        [2, 9, 0, 1, 0, 0],
        [1, 6, 0, 0, 0, 0],
        [2, 11, 0, 2, 0, 0],
        [7, 0, 0, 2, 0, 0],
    ];
    all.extend(rows);
    all.extend([CLOSE, CLOSE]);
    form(&all)
}

/// The type refers to type 1 by its name.
fn named() -> Vec<u8> {
    inside(&[[1, 12, 0, 0, 0, 0], [2, 9, 0, 3, 0, 0], [3, 9, 1, 1, 0, 70]])
}

/// A path of two on an instance.
fn path() -> Vec<u8> {
    form(&[
        OPEN,
        [1, 8, 0, 0, 0, 0],
        [2, 10, 0, 1, 0, 0],
        [1, 22, 0, 0, 0, 0],
        [2, 8, 0, 0, 0, 0],
        [3, 8, 0, 0, 2, 70],
        [4, 0, 0, 5, 0, 0],
        [4, 0, 0, 6, 0, 0],
        CLOSE,
    ])
}

#[test]
fn a_name_and_a_path_come_back() {
    for input in [named(), path()] {
        let resolved = resolve(&input).expect("accepted");
        assert_ne!(resolved, input);
        assert_eq!(unresolve(&resolved), Ok(input));
    }
}

#[test]
fn bytes_that_are_no_output_are_refused() {
    // an output has no operand that is a name
    assert_eq!(unresolve(&named()), Err(Refusal::NoInput));
    // another fresh name, another place
    let resolved = resolve(&named()).expect("accepted");
    for byte in [8 + 16 * 7 + 4, 8 + 16 * 11 + 12] {
        let mut damaged = resolved.clone();
        damaged[byte] += 1;
        assert_eq!(unresolve(&damaged), Err(Refusal::NoInput));
    }
    assert_eq!(unresolve(b""), Err(Refusal::NoInput));
}

#[test]
fn lent_buffers_are_kept_or_cleared() {
    let input = path();
    let resolved = resolve(&input).expect("accepted");
    let mut out = vec![7; input.len() + 3];
    let mut restored = vec![9; MAX_FORM_SIZE + 2];
    let mut again = vec![9; MAX_OUT_SIZE + 2];
    assert_eq!(unresolve_into(&resolved, &mut out, &mut restored, &mut again), Ok(9));
    assert_eq!(out[..input.len()], input);
    assert_eq!(out[input.len()..], [7; 3]);
    for (area, size) in [(&restored, MAX_FORM_SIZE), (&again, MAX_OUT_SIZE)] {
        assert!(area[..size].iter().all(|byte| *byte == 0));
        assert_eq!(area[size..], [9; 2]);
    }
}

#[test]
fn too_little_room_is_refused() {
    let input = path();
    let resolved = resolve(&input).expect("accepted");
    let mut out = vec![7; input.len() - 1];
    let (mut restored, mut again) = (vec![0; MAX_FORM_SIZE], vec![0; MAX_OUT_SIZE]);
    assert_eq!(unresolve_into(&resolved, &mut out, &mut restored, &mut again), Err(Refusal::Room));
    assert_eq!(unresolve_into(b"WNT", &mut out, &mut restored, &mut again), Err(Refusal::NoInput));
    assert!(out.iter().all(|byte| *byte == 7));
    // an area below its size, which becomes zero too
    let mut short = vec![1; MAX_OUT_SIZE - 1];
    assert_eq!(unresolve_into(b"WNT", &mut out, &mut restored, &mut short), Err(Refusal::Room));
    assert!(short.iter().all(|byte| *byte == 0));
    let mut short = vec![1; MAX_FORM_SIZE - 1];
    assert_eq!(unresolve_into(&resolved, &mut out, &mut short, &mut again), Err(Refusal::Room));
    assert!(short.iter().all(|byte| *byte == 0));
}
