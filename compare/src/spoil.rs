//! Spoilt forms, and the comparison of the proved mender with that of `mend`.

use crate::cases;
use crate::chance::Chance;
use crate::damage::damage_as;
use crate::generate;
use crate::library;
use crate::mend::{Left, mend};
use crate::rows::{CLOSE, FIELD, FIRST, OPEN, OUTER, ROW, Row, SECOND, Version};
use crate::shapes::Shapes;
use crate::vectors::{FILLED, Function, Lent, Sample, Vector, said};
use std::collections::{BTreeMap, BTreeSet};

/// A buffer, the length of the form in it, and a list's buffer.
struct Spoilt {
    buffer: Vec<u8>,
    long: usize,
    list: Vec<u8>,
}

/// Puts a number other than zero into a part, as an old editor does; often one that 01 says is zero.
fn spoil_part(version: Version, bytes: &mut [u8], chance: &mut Chance) {
    let rows = (bytes.len() - version.header) / ROW;
    if rows == 0 {
        return;
    }
    let at = version.form_size(chance.below(rows));
    let (start, end) = chance.pick(&[(1, 2), (2, 4), (4, 8), (8, 12), (12, 16)]);
    bytes[at + start + chance.below(end - start)] = chance.pick(&[1, 2, 3, 4, 7, 128, 255]);
}

/// Puts a number into a part that 01 says is zero or of which it keeps two bits, so that the form can be mended.
fn spoil_zero(row: &mut Row, chance: &mut Chance) {
    let word = chance.pick(&[0, 1, 2, 19, 65536, u32::MAX]);
    match row.code {
        FIELD if row.b != 19 && row.b != 22 && chance.percent(50) => row.e = word as u16,
        FIELD => (row.x, row.y) = (word, chance.pick(&[0, 5])),
        OUTER => row.e |= (word as u16) << 2,
        OPEN => (row.e, row.y, row.z) = (word as u16, chance.pick(&[0, 9]), chance.pick(&[0, 9])),
        CLOSE => *row = Row::new(CLOSE, word as u8, word as u16, chance.pick(&[0, 9]), word, chance.pick(&[0, 9])),
        2 => (row.e, row.y) = (word as u16, chance.pick(&[0, 9])),
        4 | 9 => (row.b, row.e, row.y, row.z) = (word as u8, chance.pick(&[0, 9]), word, chance.pick(&[0, 9])),
        6 => (row.b, row.e, row.y) = (word as u8, chance.pick(&[0, 9]), word),
        _ => {}
    }
}

/// One way to spoil the bytes of a form.
fn spoil_bytes(version: Version, bytes: &mut Vec<u8>, chance: &mut Chance) {
    if bytes.len() < version.header {
        return;
    }
    match chance.below(9) {
        0 => bytes.truncate(chance.below(bytes.len() + 1)),
        1 => bytes.truncate(bytes.len() - (bytes.len() - version.header).min(ROW * chance.below(4))),
        2 => bytes.extend((0..chance.below(40)).map(|_| chance.below(256) as u8).collect::<Vec<u8>>()),
        3 => bytes.extend(vec![chance.pick(&[0, 7, 8, 255]); ROW * chance.below(4)]),
        4 => bytes[6 + chance.below(version.header - 6)] = chance.below(256) as u8,
        5 => bytes[5] = if chance.percent(50) { chance.below(3) as u8 } else { chance.below(256) as u8 },
        6 => bytes[chance.below(version.header)] = chance.below(256) as u8,
        _ => spoil_part(version, bytes, chance),
    }
}

/// As many rows as a form may have, and a few more or less.
fn longest(version: Version, chance: &mut Chance) -> Vec<u8> {
    let open = Row::new(OPEN, 0, 0, 0, 0, 0);
    let field = Row::new(FIELD, chance.below(24) as u8, 0, 0, 0, 0);
    let count = version.rows - 5 + chance.below(10);
    version.encode(&[vec![open], vec![field; count]].concat())
}

/// The bytes of a form that is spoilt in up to four ways; sometimes a sound one, sometimes none at all.
fn spoilt_form(version: Version, set: u8, shapes: &Shapes, chance: &mut Chance) -> Vec<u8> {
    let mut rows = generate::form_of(version, shapes, chance.next());
    if chance.percent(60) {
        for row in &mut rows {
            if chance.percent(25) {
                spoil_zero(row, chance);
            }
        }
    }
    let mut bytes = match chance.below(20) {
        0 => (0..chance.below(200)).map(|_| chance.below(12) as u8).collect(),
        1 | 2 => damage_as(version, &rows, chance),
        3 if version == FIRST || chance.percent(10) => longest(version, chance),
        _ => version.encode(&rows),
    };
    if set > 0 && bytes.len() > 5 {
        bytes[5] = set;
    }
    for _ in 0..chance.below(4) {
        spoil_bytes(version, &mut bytes, chance);
    }
    bytes
}

/// A spoilt form in a buffer with some room, and a list's buffer that is sometimes short.
fn spoilt(shapes: &[Shapes; 2], chance: &mut Chance) -> Spoilt {
    let version = chance.pick(&[FIRST, SECOND]);
    let set = u8::from(version == SECOND && chance.percent(40));
    let form = spoilt_form(version, set, &shapes[usize::from(set)], chance);
    let room = chance.pick(&[0, 1, 15, 16, 17, 32, 100, 600, 600, 600, 600]);
    let long = if chance.percent(2) { form.len() + room + chance.below(3) } else { form.len() };
    let space =
        if chance.percent(70) { 100_000.max(2 * form.len()) } else { chance.pick(&[0, 12, 15, 16, 28, 44, 60, 200]) };
    let mut buffer = form;
    buffer.extend((0..room).map(|_| chance.below(256) as u8).collect::<Vec<u8>>());
    let list = vec![chance.below(256) as u8; space];
    Spoilt { buffer, long, list }
}

/// Mends `count` spoilt forms on both sides; answers whether both left the same bytes each time.
pub fn run(seed: u64, count: u64) -> bool {
    let shapes = [Shapes::new(), Shapes::newer()];
    let mut answers: BTreeMap<u64, u64> = BTreeMap::new();
    for number in 0..count {
        let mut chance = Chance::new(seed.rotate_left(32) ^ number);
        let case = spoilt(&shapes, &mut chance);
        let expected = mend(&shapes, &case.buffer, case.long, &case.list);
        let mut found = Left { answer: 0, buffer: case.buffer.clone(), list: case.list.clone() };
        found.answer = library::mend(&mut found.buffer, case.long, &mut found.list);
        if found != expected {
            println!("spoilt form {number}: {:#x} and not {:#x}", found.answer, expected.answer);
            println!("length {}, buffer {:?}", case.long, case.buffer);
            return false;
        }
        let kind = if expected.answer >> 32 > 0 { expected.answer >> 32 } else { expected.answer.min(1) << 8 };
        *answers.entry(kind).or_default() += 1;
    }
    for (kind, times) in &answers {
        match kind {
            0 => println!("{times} sound"),
            256 => println!("{times} mended"),
            _ => println!("{times} refused {kind}"),
        }
    }
    println!("{count} spoilt forms mended, 0 differences");
    true
}

/// How many spoilt forms are looked through for vectors, how long one is at most, and how many there are of each kind.
const LOOKED: u64 = 20_000;
const SHORT: usize = 300;
const EACH: usize = 3;

/// What a mending shows: the kinds of its changes, of a part with the code of its row.
fn shows(left: &Left) -> BTreeSet<String> {
    let header = Version::of(&left.buffer).header;
    let mut list = &left.list[..];
    let mut kinds = BTreeSet::new();
    for _ in 0..left.answer {
        let number = |at: usize| u32::from_le_bytes(list[4 * at..4 * at + 4].try_into().expect("four bytes")) as usize;
        let (at, before, now) = (number(0), number(1), number(2));
        kinds.insert(match at {
            5 => "the rule set".to_string(),
            6 => "the row count".to_string(),
            _ if at < header => "the header's zeros".to_string(),
            _ if before > now => "rows cut".to_string(),
            _ if before < now => "rows added".to_string(),
            _ => format!("part {} of a row {}", (at - header) % ROW, left.buffer[at - (at - header) % ROW]),
        });
        list = &list[12 + before.next_multiple_of(4)..];
    }
    if kinds.is_empty() {
        kinds.insert("nothing".to_string());
    }
    kinds
}

/// Vectors of each refusal, and of each kind of change, of both versions; with one scope more than there may be at the end.
pub fn vectors(seed: u64, sample: &mut Sample) {
    let shapes = [Shapes::new(), Shapes::newer()];
    for number in 0..LOOKED {
        let mut chance = Chance::new(seed.rotate_left(32) ^ number);
        let Spoilt { buffer, long, list } = spoilt(&shapes, &mut chance);
        if long <= SHORT {
            let form = &buffer[..long.min(buffer.len())];
            offer(&shapes, form, long, list.len().min(1000), sample);
        }
    }
    for version in [FIRST, SECOND] {
        for form in cases::deep(version.scopes + 1).map(|rows| version.encode(&rows)) {
            offer(&shapes, &form, form.len(), 1000, sample);
        }
    }
}

/// Takes a form in a buffer with room for two rows, and a list of `space` bytes.
fn offer(shapes: &[Shapes; 2], form: &[u8], long: usize, space: usize, sample: &mut Sample) {
    let buffer = [form, &[FILLED; 40]].concat();
    let left = mend(shapes, &buffer, long, &vec![FILLED; space]);
    let vector = Vector {
        function: Function::Mend,
        number: long as u32,
        answer: left.answer,
        inputs: vec![form.to_vec()],
        lent: vec![Lent::holding(&left.buffer), Lent::holding(&left.list)],
    };
    let version = Version::of(form).number;
    let (kinds, most) = match left.answer >> 32 {
        0 => (shows(&left), EACH),
        _ => ([said(left.answer)].into(), 2 * EACH),
    };
    sample.offer(kinds.into_iter().map(|kind| format!("version {version}, {kind}")), most, &vector);
}
