//! Two builds compared: `wnt_compare` beside a comparison by document 02's text, on pairs of forms made by chance.

use crate::chance::Chance;
use crate::library;
use crate::vectors::{FILLED, Function, Lent, Sample, Vector, said};
use std::collections::BTreeSet;

/// A row's parts: code, b, e, x, y, z.
type Row = [u32; 6];

/// A field of the root, with all inside it.
type Field = Vec<Row>;

const OPEN: u32 = 7;
const CLOSE: u32 = 8;
const FIRST_FRESH: u32 = 1 << 31;

/// A number below `n`.
fn below(chance: &mut Chance, n: u32) -> u32 {
    chance.below(n as usize) as u32
}

// ---- forms

/// An original name or a fresh one.
fn name(chance: &mut Chance) -> u32 {
    let fresh = below(chance, 3) == 0;
    let low = below(chance, 3);
    if fresh {
        FIRST_FRESH + low
    } else if below(chance, 6) == 0 {
        FIRST_FRESH - 1
    } else {
        1 + low
    }
}

/// A field of a component, at most `depth` scopes deep.
fn field(chance: &mut Chance, depth: u32) -> Field {
    let z = below(chance, 3);
    let kinds = if depth == 0 { 4 } else { 5 };
    match below(chance, kinds) {
        0 => vec![[1, 25, 0, 0, 0, z]],
        1 => vec![[1, 12, 0, 0, 0, z], [2, 9, 0, name(chance), 0, below(chance, 2)]],
        2 => {
            let named = below(chance, 2);
            let at = if named == 1 { name(chance) } else { below(chance, 3) };
            vec![[1, 21, 0, 0, 0, z], [2, 8, 0, name(chance), 0, z], [3, 9, named, at, 0, below(chance, 2)]]
        }
        3 => {
            let named = below(chance, 2);
            let at = if named == 1 { name(chance) } else { below(chance, 3) };
            vec![[1, 11, 0, 0, 0, z], [2, 9, 0, name(chance), 0, z], [5, 9, 2 * named, below(chance, 2), at, z]]
        }
        _ => {
            let called = name(chance);
            let mut rows = vec![[1, 6, 0, 0, 0, z], [2, 11, 0, called, 0, z], [OPEN, 0, 0, called, 0, 0]];
            for _ in 0..below(chance, 3) {
                rows.extend(field(chance, depth - 1));
            }
            rows.push([CLOSE, 0, 0, 0, 0, 0]);
            rows
        }
    }
}

/// A form: the root's name, and its fields.
#[derive(Clone)]
struct Form {
    name: u32,
    fields: Vec<Field>,
}

impl Form {
    fn by_chance(chance: &mut Chance) -> Form {
        let fields = (0..below(chance, 6)).map(|_| field(chance, 2)).collect();
        Form { name: below(chance, 2), fields }
    }

    /// All rows, those of the root among them.
    fn rows(&self) -> Vec<Row> {
        let mut rows = vec![[OPEN, 0, 0, self.name, 0, 0]];
        rows.extend(self.fields.iter().flatten());
        rows.push([CLOSE, 0, 0, 0, 0, 0]);
        rows
    }

    fn bytes(&self) -> Vec<u8> {
        let rows = self.rows();
        let mut out = b"WNT\x01\x00\x00".to_vec();
        out.extend((rows.len() as u16).to_le_bytes());
        out.extend(rows_bytes(&rows));
        out
    }

    /// One field changed, added, removed or moved, or places and fresh names changed all over, or nothing.
    fn changed(&self, chance: &mut Chance) -> Form {
        let mut form = self.clone();
        let n = form.fields.len() as u32;
        match below(chance, 8) {
            0 => {}
            1 if n > 0 => form.fields[below(chance, n) as usize] = field(chance, 2),
            2 => form.fields.insert(below(chance, n + 1) as usize, field(chance, 2)),
            3 if n > 0 => drop(form.fields.remove(below(chance, n) as usize)),
            4 if n > 1 => form.fields.swap(below(chance, n) as usize, below(chance, n) as usize),
            5 => form.name = below(chance, 2),
            6 => form.fields.iter_mut().flatten().for_each(|row| touch(row, chance)),
            _ => {
                let one = form.changed(chance);
                return one.changed(chance);
            }
        }
        form
    }
}

/// Another place, or another fresh name, now and then.
fn touch(row: &mut Row, chance: &mut Chance) {
    if below(chance, 4) == 0 && matches!(row[0], 1 | 2 | 3 | 5) {
        row[5] = below(chance, 3);
    }
    // A component has the name of its scope, so its DECL stays.
    if below(chance, 4) == 0 && row[0] == 2 && row[1] != 11 && row[3] >= FIRST_FRESH {
        row[3] = FIRST_FRESH + below(chance, 3);
    }
}

fn rows_bytes(rows: &[Row]) -> Vec<u8> {
    let mut out = Vec::new();
    for row in rows {
        out.extend([row[0] as u8, row[1] as u8]);
        out.extend((row[2] as u16).to_le_bytes());
        for part in &row[3..] {
            out.extend(part.to_le_bytes());
        }
    }
    out
}

// ---- the comparison by the text

/// A row with what does not count taken out of it.
fn counted(row: &Row, choice: u32) -> Row {
    let [code, b, e, mut x, mut y, mut z] = *row;
    if choice & 1 == 1 {
        z = 0;
    }
    let (x_is_name, y_is_name) = match code {
        2 | 6 | OPEN => (true, false),
        3 => (e == 1, false),
        5 => (e & 1 == 1, e & 2 == 2),
        _ => (false, false),
    };
    if choice & 2 == 2 {
        if x_is_name {
            x = x.min(FIRST_FRESH);
        }
        if y_is_name {
            y = y.min(FIRST_FRESH);
        }
    }
    [code, b, e, x, y, z]
}

fn same(left: &[Row], right: &[Row], choice: u32) -> bool {
    left.len() == right.len() && left.iter().zip(right).all(|(l, r)| counted(l, choice) == counted(r, choice))
}

/// An entry's bytes.
fn entry(list: &mut Vec<u8>, kind: u32, left: (usize, usize), right: usize, rows: &[Row]) {
    for number in [kind, left.0 as u32, left.1 as u32, right as u32, rows.len() as u32] {
        list.extend(number.to_le_bytes());
    }
    list.extend(rows_bytes(rows));
}

/// The list that document 02 asks for.
fn expected(left: &Form, right: &Form, choice: u32) -> Vec<u8> {
    let mut list = Vec::new();
    let (l_open, r_open) = ([OPEN, 0, 0, left.name, 0, 0], [OPEN, 0, 0, right.name, 0, 0]);
    if !same(&[l_open], &[r_open], choice) {
        entry(&mut list, 1, (0, 1), 0, &[r_open]);
    }
    let (mut ls, mut rs) = (&left.fields[..], &right.fields[..]);
    let mut row = 1;
    while let ([l, l_rest @ ..], [r, r_rest @ ..]) = (ls, rs) {
        if !same(l, r, choice) {
            break;
        }
        row += l.len();
        (ls, rs) = (l_rest, r_rest);
    }
    while let ([l_rest @ .., l], [r_rest @ .., r]) = (ls, rs) {
        if !same(l, r, choice) {
            break;
        }
        (ls, rs) = (l_rest, r_rest);
    }
    if let ([l], [r]) = (ls, rs) {
        if l[0][1] == r[0][1] {
            entry(&mut list, 4, (row, l.len()), row, r);
            return list;
        }
    }
    let mut at = row;
    for l in ls {
        entry(&mut list, 2, (at, l.len()), row, &[]);
        at += l.len();
    }
    let mut to = row;
    for r in rs {
        entry(&mut list, 3, (at, 0), to, r);
        to += r.len();
    }
    list
}

// ---- damage

/// The form's bytes damaged, and the refusal that they get: its number and place.
fn damaged(form: &Form, chance: &mut Chance) -> (Vec<u8>, (u32, u32)) {
    let mut bytes = form.bytes();
    let rows = form.rows().len();
    match below(chance, 5) {
        0 => {
            let at = below(chance, 6) as usize;
            bytes[at] ^= 1 + below(chance, 255) as u8;
            if bytes[3] == 2 {
                // Version 2 has a header too.
                bytes[3] = 3;
            }
            (bytes, (1, 0))
        }
        1 => {
            bytes.truncate(bytes.len() - 1 - below(chance, 16) as usize);
            (bytes, (2, 0))
        }
        2 => {
            let row = below(chance, rows as u32);
            bytes[8 + 16 * row as usize] = 10;
            (bytes, (4, row))
        }
        3 => (deep(form).bytes(), (5, 3 * MOST_SCOPES)),
        _ => {
            // The CLOSE of the root is cut off: the form ends early.
            bytes.truncate(bytes.len() - 16);
            bytes[6..8].copy_from_slice(&((rows - 1) as u16).to_le_bytes());
            (bytes, (4, rows as u32 - 1))
        }
    }
}

/// How many scopes may be open at once.
const MOST_SCOPES: u32 = 32;

/// The form with a first field that opens one scope too many, each inside the one before.
fn deep(form: &Form) -> Form {
    let mut form = form.clone();
    let opened = [[1, 6, 0, 0, 0, 0], [2, 11, 0, 1, 0, 0], [OPEN, 0, 0, 1, 0, 0]];
    let mut rows = opened.repeat(MOST_SCOPES as usize);
    rows.extend(vec![[CLOSE, 0, 0, 0, 0, 0]; MOST_SCOPES as usize]);
    form.fields.insert(0, rows);
    form
}

// ---- the run

/// Two builds as bytes, one call of the comparison for each choice, and how both come to be refused, if they do.
struct Pair {
    left: Form,
    right: Form,
    bytes: [Vec<u8>; 2],
    refused: Option<(u32, u32)>,
}

/// One comparison: the choice, whose higher bits are by chance, and what the list then holds.
struct Call {
    choice: u32,
    answer: u64,
    content: Vec<u8>,
    /// The kinds of its entries.
    kinds: BTreeSet<u32>,
}

impl Pair {
    fn draw(chance: &mut Chance) -> Pair {
        let left = Form::by_chance(chance);
        let right = if below(chance, 5) == 0 { Form::by_chance(chance) } else { left.changed(chance) };
        let mut bytes = [left.bytes(), right.bytes()];
        let mut refused = None;
        if below(chance, 8) == 0 {
            let (spoilt, why) = damaged(&right, chance);
            (bytes[1], refused) = (spoilt, Some(why));
        }
        if below(chance, 8) == 0 {
            let (spoilt, why) = damaged(&left, chance);
            (bytes[0], refused) = (spoilt, Some(why));
        }
        Pair { left, right, bytes, refused }
    }

    /// What must come of it under a choice.
    fn call(&self, choice: u32, chance: &mut Chance) -> Call {
        let list = expected(&self.left, &self.right, choice);
        let room = if below(chance, 4) == 0 { below(chance, list.len() as u32 + 1) as usize } else { list.len() + 40 };
        let choice = choice + 4 * below(chance, 100);
        let short = if room < list.len() { Some((3, 0)) } else { None };
        let mut content = vec![FILLED; room];
        if let Some((number, place)) = self.refused.or(short) {
            let answer = (u64::from(number) << 32) + u64::from(place);
            return Call { choice, answer, content, kinds: BTreeSet::new() };
        }
        content[..list.len()].copy_from_slice(&list);
        Call { choice, answer: list.len() as u64, content, kinds: kinds(&list) }
    }
}

/// The kinds of the entries of a list.
fn kinds(mut list: &[u8]) -> BTreeSet<u32> {
    let mut kinds = BTreeSet::new();
    while !list.is_empty() {
        let number = |at: usize| u32::from_le_bytes(list[4 * at..4 * at + 4].try_into().expect("four bytes"));
        kinds.insert(number(0));
        list = &list[20 + 16 * number(4) as usize..];
    }
    kinds
}

/// One pair under the four choices; what differs, in words.
fn pair(chance: &mut Chance) -> Result<(), String> {
    let pair = Pair::draw(chance);
    let [left, right] = &pair.bytes;
    for choice in 0..4 {
        let Call { choice, answer: wanted, content, .. } = pair.call(choice, chance);
        let mut held = vec![FILLED; content.len()];
        let answer = library::compare(left, right, choice, &mut held);
        if (answer, &held) != (wanted, &content) {
            return Err(format!(
                "choice {choice}, answer {answer:#x}, wanted {wanted:#x}\nleft {left:?}\nright {right:?}"
            ));
        }
    }
    Ok(())
}

/// Compares `pairs` pairs; the first that differs is printed and ends the run.
pub fn run(pairs: u64, seed: u64) -> bool {
    let mut chance = Chance::new(seed);
    for done in 0..pairs {
        if let Err(words) = pair(&mut chance) {
            println!("pair {done} differs: {words}");
            return false;
        }
    }
    println!("{pairs} pairs of builds under four choices, seed {seed}: 0 differences");
    true
}

/// How many pairs are looked through for vectors, how long they may be, and how many there are of each kind.
const LOOKED: u64 = 4_000;
const SHORT: usize = 400;
const EACH: usize = 4;

/// Vectors of each refusal, and of each combination of entries under each choice.
pub fn vectors(seed: u64, sample: &mut Sample) {
    for number in 0..LOOKED {
        let mut chance = Chance::new(seed.rotate_left(32) ^ number);
        let pair = Pair::draw(&mut chance);
        if pair.refused.is_none_or(|(number, _)| number != 5) && pair.bytes.iter().any(|bytes| bytes.len() > SHORT) {
            continue;
        }
        for choice in 0..4 {
            let call = pair.call(choice, &mut chance);
            let vector = Vector {
                function: Function::Compare,
                number: call.choice,
                answer: call.answer,
                inputs: pair.bytes.to_vec(),
                lent: vec![Lent::holding(&call.content)],
            };
            let whose = if pair.bytes[0] == pair.left.bytes() { "" } else { " of the left" };
            let kinds: Vec<String> = match call.answer {
                0 => vec![format!("choice {choice}, equal")],
                answer if answer >> 32 == 0 => {
                    call.kinds.iter().map(|kind| format!("choice {choice}, entry {kind}")).collect()
                }
                answer => vec![format!("{}{whose}", said(answer))],
            };
            sample.offer(kinds, EACH, &vector);
        }
    }
}
