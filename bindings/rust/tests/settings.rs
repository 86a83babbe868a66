//! The functions with a working area, on forms of both versions and rule sets.

use wnt::{
    batch, batch_with, check_either, convert, member, member_with, moved, moved_with, resolve, resolve_with, share,
    share_with, sheet, sheet_with, unresolve, unresolve_with, Condition, Of, Refusal, Refused, Slot, Verdict, Version,
    WorkingArea,
};

/// A row's parts: code, b, e, x, y, z.
type Row = [u32; 6];

const CLOSE: Row = [8, 0, 0, 0, 0, 0];

/// A form of version 1 whose root has this name and these rows inside.
fn form(name: u32, rows: &[Row]) -> Vec<u8> {
    let all = [&[[7, 0, 0, name, 0, 0]], rows, &[CLOSE]].concat();
    let mut out = b"WNT\x01\x00\x00".to_vec();
    out.extend((all.len() as u16).to_le_bytes());
    for [code, b, e, x, y, z] in all {
        out.extend([code as u8, b as u8]);
        out.extend((e as u16).to_le_bytes());
        out.extend([x, y, z].into_iter().flat_map(u32::to_le_bytes));
    }
    out
}

/// The same form in version 2, under the rule set of this number.
fn under(rules: u8, form: &[u8]) -> Vec<u8> {
    let mut out = convert(form, Version::Two).expect("every form of version 1 goes");
    out[5] = rules;
    out
}

/// Two types 1 and 2, and a component 3 with `count` types that each name type 2, all at place 70.
fn driver(count: u32) -> Vec<u8> {
    let types = [[1, 12, 0, 0, 0, 0], [2, 9, 0, 1, 0, 0], [1, 12, 0, 0, 0, 0], [2, 9, 0, 2, 0, 0]];
    let opens = [[1, 6, 0, 0, 0, 0], [2, 11, 0, 3, 0, 0], [7, 0, 0, 3, 0, 0]];
    let naming = (0..count).flat_map(|at| [[1, 12, 0, 0, 0, 0], [2, 9, 0, 9 + at, 0, 0], [3, 9, 1, 2, 0, 70 + at]]);
    let inner: Vec<Row> = naming.collect();
    form(0, &[&types[..], &opens, &inner, &[CLOSE]].concat())
}

/// A type 1 that names type 2, which a later field declares.
fn forward() -> Vec<u8> {
    let naming = [[1, 12, 0, 0, 0, 0], [2, 9, 0, 1, 0, 0], [3, 9, 1, 2, 0, 70]];
    form(0, &[&naming[..], &[[1, 12, 0, 0, 0, 0], [2, 9, 0, 2, 0, 0]]].concat())
}

/// A type that names type 2.
fn naming() -> Vec<u8> {
    form(8, &[[1, 12, 0, 0, 0, 0], [2, 9, 0, 5, 0, 0], [3, 9, 1, 2, 0, 72]])
}

fn area() -> WorkingArea {
    WorkingArea::new(Version::Two)
}

fn member_area() -> WorkingArea {
    WorkingArea::for_members(Version::Two)
}

/// The refusal of a name that no earlier field declares, at place 70.
const LATE: Refusal = Refusal::NotEarlier { place: 70 };

#[test]
fn fewer_aliases_under_each_setting() {
    let plain = driver(5);
    let shared = share(&plain).expect("it is accepted");
    assert!(shared.len() < resolve(&plain).expect("it is accepted").len());
    assert_eq!(share_with(&plain, &mut area()), Ok(shared.clone()));
    for rules in [0, 1] {
        let larger = under(rules, &plain);
        let got = share_with(&larger, &mut area()).expect("it is accepted");
        assert_eq!((got[5], &got[16..]), (rules, &shared[8..]));
        assert_eq!(check_either(&larger, &got, &mut area()), Ok(Verdict::Yes));
    }
    assert!(share_with(&under(0, &forward()), &mut area()).is_ok());
    assert_eq!(share_with(&under(1, &forward()), &mut area()), Err(LATE));
    assert_eq!(share_with(&under(1, &plain), &mut WorkingArea::new(Version::One)), Err(Refusal::Room));
}

#[test]
fn back_to_names_under_each_setting() {
    let plain = driver(2);
    let out = resolve(&plain).expect("it is accepted");
    assert_eq!(unresolve_with(&out, &mut area()), unresolve(&out));
    assert_eq!(unresolve_with(&out, &mut area()), Ok(plain.clone()));
    for rules in [0, 1] {
        let larger = under(rules, &plain);
        let out = resolve_with(&larger, &mut area()).expect("it is accepted");
        assert_eq!(unresolve_with(&out, &mut area()), Ok(larger.clone()));
        // an output has no operand that is a name
        assert_eq!(unresolve_with(&larger, &mut area()), Err(Refusal::NoInput));
        assert_eq!(unresolve_with(&out, &mut WorkingArea::new(Version::One)), Err(Refusal::Room));
    }
    // under rule set 1 a number may count to a later declaration, and stays one
    let out = resolve_with(&under(0, &forward()), &mut area()).expect("rule set 0 accepts it");
    let mut newer = out.clone();
    newer[5] = 1;
    assert_eq!(unresolve_with(&newer, &mut area()), Ok(newer));
}

#[test]
fn a_member_under_each_setting() {
    let (plain, inner) = (driver(1), naming());
    let got = member(&plain, &inner).expect("the prelude declares it");
    assert_eq!(member_with(&plain, &inner, &mut member_area()), Ok(got.clone()));
    for rules in [0, 1] {
        let (prelude, member) = (under(rules, &plain), under(rules, &inner));
        // all that the prelude declares is earlier
        let larger = member_with(&prelude, &member, &mut member_area()).expect("the prelude declares it");
        assert_eq!((larger[5], &larger[16..]), (rules, &got[8..]));
        let other = Err(Refused { of: Of::Member, why: Refusal::Header });
        assert_eq!(member_with(&prelude, &under(1 - rules, &inner), &mut member_area()), other);
        assert_eq!(member_with(&prelude, &inner, &mut member_area()), other);
        // an area for forms by themselves is too small
        let small = Err(Refused { of: Of::Prelude, why: Refusal::Room });
        assert_eq!(member_with(&prelude, &member, &mut area()), small);
    }
    let late = |of| Err(Refused { of, why: LATE });
    let (sound, spoilt) = (under(1, &plain), under(1, &forward()));
    assert_eq!(member_with(&sound, &spoilt, &mut member_area()), late(Of::Member));
    assert_eq!(member_with(&spoilt, &sound, &mut member_area()), late(Of::Prelude));
}

#[test]
fn a_batch_under_each_setting() {
    let (plain, inner) = (driver(1), naming());
    let got = batch(&plain, &[&inner, &plain]).expect("the prelude is accepted");
    assert_eq!(batch_with(&plain, &[&inner, &plain], &mut member_area()), Ok(got));
    for rules in [0, 1] {
        let (prelude, member) = (under(rules, &plain), under(rules, &inner));
        let (other, spoilt) = (under(1 - rules, &inner), under(rules, &forward()));
        let all = [&member[..], &other, &spoilt, &member];
        let got = batch_with(&prelude, &all, &mut member_area()).expect("the prelude is accepted");
        assert_eq!(Ok(got.prelude), resolve_with(&prelude, &mut area()));
        let alone = |form: &[u8]| member_with(&prelude, form, &mut member_area()).map_err(|no| no.why);
        assert_eq!(got.members, all.map(alone));
        assert_eq!(got.members[1], Err(Refusal::Header));
        assert_eq!(got.members[2].is_ok(), rules == 0);
        assert_eq!(batch_with(&prelude, &all, &mut area()), Err(Refusal::Room));
        assert_eq!(batch_with(&prelude, &[], &mut member_area()), Err(Refusal::RowCount));
    }
    assert_eq!(batch_with(&under(1, &forward()), &[&inner], &mut member_area()), Err(LATE));
}

#[test]
fn numbers_sheets_and_claims_under_rule_set_1() {
    let plain = driver(1);
    let (newer, lists) = (under(1, &plain), moved(&plain).expect("it is accepted"));
    let got = moved_with(&newer, &mut area()).expect("it is accepted");
    assert_eq!((&got.resolved[16..], &got.moved, &got.apart), (&lists.resolved[8..], &lists.moved, &lists.apart));
    assert_eq!(moved_with(&under(1, &forward()), &mut area()), Err(LATE));
    let slots = [Slot { family: 1, place: 70, name: 2 }, Slot { family: 1, place: 70, name: 1 }];
    assert_eq!(sheet_with(&newer, &got.resolved, &slots, &mut area()), sheet(&plain, &lists.resolved, &slots));
    assert_eq!(check_either(&newer, &got.resolved, &mut area()), Ok(Verdict::Yes));
    assert_eq!(check_either(&under(1, &forward()), &newer, &mut area()), Err(LATE));
    // a claim under the other rule set
    let no = Verdict::No { condition: Condition::Form, row: 0 };
    assert_eq!(check_either(&under(0, &plain), &got.resolved, &mut area()), Ok(no));
}
