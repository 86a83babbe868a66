//! Members inside a prelude, one and a batch of them, as seen through the wrapper.

use wnt::{batch, batch_into, member, resolve, Of, Refusal, Refused};

/// A row's parts: code, b, e, x, y, z.
type Row = [u32; 6];

/// A form of version 1 whose root has this name and these rows inside.
fn form(name: u32, rows: &[Row]) -> Vec<u8> {
    let mut all = vec![[7, 0, 0, name, 0, 0]];
    all.extend(rows);
    all.push([8, 0, 0, 0, 0, 0]);
    let mut out = b"WNT\x01\x00\x00".to_vec();
    out.extend((all.len() as u16).to_le_bytes());
    for [code, b, e, x, y, z] in all {
        out.extend([code as u8, b as u8]);
        out.extend((e as u16).to_le_bytes());
        for part in [x, y, z] {
            out.extend(part.to_le_bytes());
        }
    }
    out
}

/// The root is 9. An instance 5 is imported; then come the types 3 and 4.
fn decoders() -> Vec<u8> {
    form(
        9,
        &[
            [1, 21, 0, 0, 0, 10],
            [2, 10, 0, 5, 0, 11],
            [3, 9, 0, 0, 0, 12],
            [1, 12, 0, 0, 0, 20],
            [2, 9, 0, 3, 0, 21],
            [1, 12, 0, 0, 0, 30],
            [2, 9, 0, 4, 0, 31],
        ],
    )
}

/// A type 1 that names the type `name`.
fn naming(name: u32) -> Vec<u8> {
    form(8, &[[1, 12, 0, 0, 0, 70], [2, 9, 0, 1, 0, 71], [3, 9, 1, name, 0, 72]])
}

#[test]
fn a_name_of_the_prelude_is_found_one_scope_out() {
    let got = member(&decoders(), &naming(4)).expect("the prelude declares it");
    // an alias of it, by its number in the resolved prelude, stands before the field
    let rows = u16::from_le_bytes([got[6], got[7]]);
    assert_eq!(rows, 8);
    let outer = &got[8 + 16 * 3..8 + 16 * 4];
    assert_eq!((outer[0], outer[1]), (5, 9));
    assert_eq!(u32::from_le_bytes([outer[4], outer[5], outer[6], outer[7]]), 1);
    assert_eq!(u32::from_le_bytes([outer[8], outer[9], outer[10], outer[11]]), 1);
    let fresh = &got[8 + 16 * 2..8 + 16 * 3];
    assert_eq!(u32::from_le_bytes([fresh[4], fresh[5], fresh[6], fresh[7]]), 2_147_483_648);
}

#[test]
fn an_unknown_name_is_the_members_refusal() {
    let why = Refusal::UnknownName { place: 72, space: None };
    assert_eq!(member(&decoders(), &naming(77)), Err(Refused { of: Of::Member, why }));
}

#[test]
fn a_refused_prelude_is_told_from_a_refused_member() {
    let why = Refusal::UnknownName { place: 72, space: None };
    assert_eq!(member(&naming(77), &naming(4)), Err(Refused { of: Of::Prelude, why }));
    assert_eq!(member(&[], &naming(4)), Err(Refused { of: Of::Prelude, why: Refusal::Header }));
}

#[test]
fn a_member_of_another_version_is_refused() {
    let mut other = naming(4);
    other[3] = 2;
    assert_eq!(member(&decoders(), &other), Err(Refused { of: Of::Member, why: Refusal::Header }));
}

#[test]
fn each_member_of_a_batch_is_what_it_is_alone() {
    let (prelude, first, second) = (decoders(), naming(3), naming(4));
    let got = batch(&prelude, &[&first, &second]).expect("the prelude is accepted");
    assert_eq!(Ok(got.prelude), resolve(&prelude));
    assert_eq!(
        got.members,
        [member(&prelude, &first).map_err(|no| no.why), member(&prelude, &second).map_err(|no| no.why)]
    );
}

#[test]
fn of_a_refused_member_the_others_notice_nothing() {
    let (prelude, mine) = (decoders(), naming(4));
    let alone = batch(&prelude, &[&mine]).expect("accepted").members.remove(0);
    assert!(alone.is_ok());
    for other in [naming(77), Vec::new(), b"text".to_vec(), mine[..24].to_vec(), naming(3)] {
        let before = batch(&prelude, &[&other, &mine]).expect("accepted").members;
        let behind = batch(&prelude, &[&mine, &other]).expect("accepted").members;
        assert_eq!((&before[1], &behind[0]), (&alone, &alone));
        assert_eq!(before[0], behind[1]);
    }
}

#[test]
fn a_refused_prelude_or_a_bad_count_refuses_the_batch() {
    let mine = naming(4);
    let why = Refusal::UnknownName { place: 72, space: None };
    assert_eq!(batch(&naming(77), &[&mine]), Err(why));
    assert_eq!(batch(&naming(77), &[]), Err(Refusal::RowCount));
    assert_eq!(batch(&naming(77), &[&mine[..]; 9]), Err(Refusal::RowCount));
    assert!(batch(&decoders(), &[&mine[..]; 8]).is_ok());
}

#[test]
fn shares_are_equal_and_rounded_down() {
    let (prelude, mine) = (decoders(), naming(4));
    let both = [&mine[..], &mine].concat();
    let length = mine.len() as u32;
    let need = 8 + 64 * 5;
    let (mut out, mut outs, mut answers) = (vec![7; 8 + 64 * 9], vec![6; 2 * need + 1], vec![5; 17]);
    let old = (out.clone(), outs.clone(), answers.clone());
    let mut run = |lengths: &[u32], room: usize, outs: &mut Vec<u8>, answers: &mut Vec<u8>| {
        let got = batch_into(&prelude, &both, lengths, &mut out, &mut outs[..], &mut answers[..room]);
        (got, out.clone())
    };
    // lengths that do not add up, and a byte too few for the answers: nothing is touched
    assert_eq!(run(&[length, length - 1], 17, &mut outs, &mut answers), (Err(Refusal::RowCount), old.0.clone()));
    assert_eq!(run(&[length, length], 15, &mut outs, &mut answers), (Err(Refusal::Room), old.0.clone()));
    assert_eq!((&outs, &answers), (&old.1, &old.2));
    assert_eq!(run(&[length, length], 17, &mut outs, &mut answers).0, Ok(9));
    let alone = member(&prelude, &mine).expect("the prelude declares it");
    for share in [&outs[..need], &outs[need..2 * need]] {
        assert_eq!(share[..alone.len()], alone);
        assert!(share[alone.len()..].iter().all(|byte| *byte == 0));
    }
    assert_eq!(outs[2 * need], 6);
    assert_eq!(answers, [8, 0, 0, 0, 0, 0, 0, 0, 8, 0, 0, 0, 0, 0, 0, 0, 5]);
    // a byte less for both: neither share has room
    assert_eq!(run(&[length, length], 17, &mut vec![6; 2 * need - 1], &mut answers).0, Ok(9));
    assert_eq!(answers, [0, 0, 0, 0, 3, 0, 0, 0, 0, 0, 0, 0, 3, 0, 0, 0, 5]);
}
