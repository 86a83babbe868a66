//! Batches: each member is held to the crate as in `members`, and resolved once more among other neighbours.

use crate::cases;
use crate::chance::Chance;
use crate::compare::{Case, Comparison};
use crate::damage::damage;
use crate::lent::{self, Lender, Lengths, Needs};
use crate::library::{self, Areas, Buffers};
use crate::meant::pair_of;
use crate::members::{are_small, askable, expected, filled, inside, output};
use crate::rows::{self, Answer, FIRST, Row, SECOND, Version, output_size};
use crate::vectors::{FILLED, Function, Lent, Sample, Vector, said};
use std::collections::BTreeMap;

/// The most members of a batch.
const MOST: usize = 8;

/// A prelude, its members, all of one version, and the length of a member's share.
struct Batch {
    version: Version,
    prelude: Vec<Row>,
    members: Vec<Vec<Row>>,
    share: usize,
}

impl Batch {
    /// A batch within the limits, or none. Most shares have room for every member, some just for one of them.
    fn drawn(comparison: &Comparison, version: Version, chance: &mut Chance) -> Option<Batch> {
        let shapes = comparison.shapes_of(version);
        let (prelude, first) = pair_of(version, shapes, chance);
        let mut members = vec![first];
        for _ in 0..chance.below(MOST) {
            members.push(pair_of(version, shapes, chance).1);
        }
        let members: Vec<Vec<Row>> = members.into_iter().map(|member| askable(&prelude, member)).collect();
        let sizes: Vec<usize> = members.iter().map(|member| version.output_size(member.len())).collect();
        let share = if chance.percent(20) { chance.pick(&sizes) } else { sizes.iter().max()? + chance.below(80) };
        let small = members.iter().all(|member| are_small(version, &prelude, member));
        small.then_some(Batch { version, prelude, members, share })
    }

    /// What the crate answers for the prelude and for each member; none where it panics.
    fn answers(&self, comparison: &Comparison, choice: u64) -> Option<(Answer, Vec<Answer>)> {
        let prelude = comparison.answer_as(self.version, &self.prelude, choice);
        let members: Vec<Answer> =
            self.members.iter().map(|member| self.of_member(comparison, member, choice)).collect();
        let right = prelude != Answer::Panicked && !members.contains(&Answer::Panicked);
        right.then_some((prelude, members))
    }

    fn of_member(&self, comparison: &Comparison, member: &[Row], choice: u64) -> Answer {
        match expected(comparison, self.version, &self.prelude, member, choice) {
            Answer::Panicked => Answer::Panicked,
            _ if self.share < self.version.output_size(member.len()) => Answer::refused(3, 0),
            answer => answer,
        }
    }

    /// Buffers for `count` members, with some bytes left over.
    fn buffers(&self, count: usize, byte: u8, chance: &mut Chance) -> Buffers {
        Buffers {
            prelude: filled(self.version.output_size(self.prelude.len()) + chance.below(80), chance),
            outs: vec![byte; self.share * count + chance.below(count)],
            answers: vec![byte; 8 * count + chance.below(9)],
        }
    }

    /// What the buffers hold after these answers.
    fn left(&self, prelude: &Answer, members: &[Answer], old: &Buffers) -> Buffers {
        let mut new = old.clone();
        new.prelude = output(self.version, prelude, self.prelude.len(), &old.prelude);
        if let Answer::Accepted(_) = prelude {
            for (i, (answer, member)) in members.iter().zip(&self.members).enumerate() {
                let share = i * self.share..(i + 1) * self.share;
                let out = output(self.version, answer, member.len(), &old.outs[share.clone()]);
                new.outs[share].copy_from_slice(&out);
                new.answers[8 * i..8 * i + 8].copy_from_slice(&answer.packed().to_le_bytes());
            }
        }
        new
    }

    /// A member's part of the buffers: its share and its answer.
    fn part<'a>(&self, buffers: &'a Buffers, i: usize) -> (&'a [u8], &'a [u8]) {
        (&buffers.outs[i * self.share..(i + 1) * self.share], &buffers.answers[8 * i..8 * i + 8])
    }

    /// What the library answers to the prelude with these members, in areas of these lengths where they are lent, and whether
    /// they are cleared then.
    fn call(
        &self,
        members: &[Vec<u8>],
        into: &mut Buffers,
        lender: Option<&mut Lender>,
        lengths: Option<Lengths>,
    ) -> (u64, bool) {
        let prelude = self.version.encode(&self.prelude);
        let Some(lender) = lender else { return (library::batch(&prelude, members, into), true) };
        let (needs, call) =
            (Needs::inside(self.version), |areas: &mut Areas| library::batch_with(&prelude, members, into, areas));
        match lengths {
            Some(lengths) => lender.call(needs, lengths, call),
            None => lender.call_exactly(needs, call),
        }
    }

    fn forms(&self) -> Vec<Vec<u8>> {
        self.members.iter().map(|member| self.version.encode(member)).collect()
    }

    /// Resolves the members of one parity again, turned about and among others: whether each is left what it was.
    fn is_same_again(
        &self,
        first: &Buffers,
        parity: usize,
        byte: u8,
        lender: Option<&mut Lender>,
        chance: &mut Chance,
    ) -> bool {
        let own = self.forms();
        let count = own.len() + chance.below(MOST + 1 - own.len());
        let turn = chance.below(count);
        let mut all: Vec<Vec<u8>> = (0..count).map(|_| changed(&own[chance.below(own.len())], chance)).collect();
        let kept: Vec<usize> = (parity..own.len()).step_by(2).collect();
        for i in &kept {
            all[(i + turn) % count] = own[*i].clone();
        }
        let mut again = self.buffers(count, byte, chance);
        let (_, cleared) = self.call(&all, &mut again, lender, None);
        cleared && kept.iter().all(|i| self.part(&again, (i + turn) % count) == self.part(first, *i))
    }

    /// What is wrong with the library's answer and with what it left, if something is: once, and among others.
    fn differs(
        &self,
        (prelude, answers): (&Answer, &[Answer]),
        mut lender: Option<&mut Lender>,
        chance: &mut Chance,
    ) -> Option<String> {
        let byte = chance.next() as u8 | 1;
        let old = self.buffers(self.members.len(), byte, chance);
        let lengths = lender.is_some().then(|| Needs::inside(self.version).lengths(chance));
        let mut new = old.clone();
        let (packed, cleared) = self.call(&self.forms(), &mut new, lender.as_deref_mut(), lengths);
        let short = lengths.is_some_and(|lengths| !Needs::inside(self.version).are_met(lengths));
        let (wanted, left) = match short {
            true => (3 << 32, old),
            false => (prelude.packed(), self.left(prelude, answers, &old)),
        };
        let same = new == left;
        if packed != wanted || !same || !cleared {
            return Some(format!("{packed:#x}, expected {wanted:#x}; the buffers: {same}, the areas: {cleared}"));
        }
        let again = |parity| self.is_same_again(&new, parity, byte, lender.as_deref_mut(), chance);
        let alone = short || (0..2).all(again);
        (!alone).then(|| "a member is left something else among others".to_string())
    }
}

/// Another form, or no form at all: what a vendor may send in place of it.
fn changed(form: &[u8], chance: &mut Chance) -> Vec<u8> {
    let mut bytes = form.to_vec();
    match chance.below(5) {
        0 => bytes.clear(),
        1 => bytes.truncate(chance.below(form.len())),
        2 => bytes.extend(filled(1 + chance.below(40), chance)),
        3 => {
            let at = chance.below(form.len());
            bytes[at] = chance.next() as u8;
        }
        _ => {}
    }
    bytes
}

/// Resolves this number of batches, and prints a summary line; answers whether there was no difference. Where areas are
/// lent they are of both versions and rule sets.
pub fn run(comparison: &Comparison, seed: u64, batches: u64, lending: bool) -> bool {
    let mut found: BTreeMap<(bool, u32), u64> = BTreeMap::new();
    let mut lender = lending.then(Lender::new);
    let (mut tried, mut number, mut members) = (0, 0, 0);
    while tried < batches {
        let mut chance = Chance::new(seed.rotate_left(32) ^ number);
        number += 1;
        let version = lent::version(lending, &mut chance);
        let Some(batch) = Batch::drawn(comparison, version, &mut chance) else { continue };
        let Some((prelude, answers)) = batch.answers(comparison, chance.next()) else { continue };
        tried += 1;
        if let Some(words) = batch.differs((&prelude, &answers), lender.as_mut(), &mut chance) {
            println!("batch {} of seed {seed}, version {version:?}: {words}", number - 1);
            batch.prelude.iter().for_each(|r| println!("  {r}"));
            return false;
        }
        *found.entry((true, (prelude.packed() >> 32) as u32)).or_default() += 1;
        if prelude.packed() >> 32 == 0 {
            members += answers.len();
            answers.iter().for_each(|answer| *found.entry((false, (answer.packed() >> 32) as u32)).or_default() += 1);
        }
    }
    for ((is_prelude, refusal), count) in found {
        let what = if is_prelude { "batches" } else { "members" };
        println!("{count} {what}: {}", if refusal == 0 { "accepted".into() } else { format!("refusal {refusal}") });
    }
    println!(
        "{batches} batches resolved, {members} members of accepted preludes, each again among others; 0 differences"
    );
    true
}

/// How many batches are looked through for vectors, the most rows of a form, and how many there are of each kind.
const LOOKED: u64 = 40_000;
const FEW_ROWS: usize = 12;
const EACH: usize = 2;

/// A call: the bytes of the members one behind another, their lengths as stated, and the lengths of the three buffers.
struct Call {
    prelude: Vec<u8>,
    members: Vec<Vec<u8>>,
    stated: Vec<u32>,
    rooms: [usize; 3],
}

impl Call {
    /// One of few rows, or none: forms and lengths are damaged now and then, and buffers too short.
    fn draw(comparison: &Comparison, chance: &mut Chance) -> Option<Call> {
        let Batch { prelude, members, share, .. } = Batch::drawn(comparison, FIRST, chance)?;
        if members.iter().chain([&prelude]).any(|form| form.len() > FEW_ROWS) {
            return None;
        }
        let sent = |form: &Vec<Row>, chance: &mut Chance| match chance.below(12) {
            0 => damage(form, chance),
            1 => SECOND.encode(form),
            _ => rows::encode(form),
        };
        let length = output_size(prelude.len()) + chance.below(9);
        let prelude = sent(&prelude, chance);
        let mut members: Vec<Vec<u8>> = members.iter().map(|form| sent(form, chance)).collect();
        match chance.below(20) {
            0 => members.clear(),
            1 => members.resize(MOST + 1, members[0].clone()),
            _ => {}
        }
        let mut stated: Vec<u32> = members.iter().map(|form| form.len() as u32).collect();
        if chance.percent(5) && !stated.is_empty() {
            stated[0] = chance.pick(&[0, stated[0] + 1, u32::MAX]);
        }
        let count = members.len().max(1);
        let shorter =
            |length: usize, chance: &mut Chance| if chance.percent(5) { chance.below(length) } else { length };
        let outs = share * count + chance.below(count);
        let answers = 8 * count + chance.below(9);
        let rooms = [length, outs, answers].map(|length| shorter(length, chance));
        Some(Call { prelude, members, stated, rooms })
    }

    /// What refuses the whole batch ahead of the prelude.
    fn refused(&self) -> Option<u32> {
        let count = self.stated.len();
        let sum: u64 = self.stated.iter().map(|length| u64::from(*length)).sum();
        let all: usize = self.members.iter().map(Vec::len).sum();
        if count == 0 || count > MOST || sum != all as u64 {
            return Some(2);
        }
        (self.rooms[2] < 8 * count).then_some(3)
    }

    /// The answer, what the buffers then hold, and what a vector of it shows; none where the crate panics.
    fn expected(&self, comparison: &Comparison) -> Option<(u64, [Vec<u8>; 3], Vec<String>)> {
        let mut buffers = self.rooms.map(|length| vec![FILLED; length]);
        if let Some(number) = self.refused() {
            let shown = format!("refused with {number}, {} members", self.stated.len().min(MOST + 1));
            return Some((u64::from(number) << 32, buffers, vec![shown]));
        }
        let case = Case { form: self.prelude.clone(), out_len: self.rooms[0], fill: 0, choice: 0 };
        let prelude = comparison.expected(&case);
        buffers[0] = output(FIRST, &prelude, rows::decode(&self.prelude).len(), &buffers[0]);
        let mut shown = vec![format!("{}, the prelude", said(prelude.packed()))];
        if let Answer::Accepted(_) = prelude {
            let share = self.rooms[1] / self.members.len();
            let outer = rows::decode(&self.prelude);
            for (i, member) in self.members.iter().enumerate() {
                let answer = inside(comparison, FIRST, &outer, member, share, 0);
                let out = &mut buffers[1][i * share..(i + 1) * share];
                out.copy_from_slice(&output(FIRST, &answer, rows::decode(member).len(), out));
                buffers[2][8 * i..8 * i + 8].copy_from_slice(&answer.packed().to_le_bytes());
                shown.push(format!("{}, member {i}", said(answer.packed())));
                if answer == Answer::Panicked {
                    return None;
                }
            }
        }
        (prelude != Answer::Panicked).then_some((prelude.packed(), buffers, shown))
    }
}

/// Members with as many scopes as they may have and with one more, inside an empty prelude.
fn deep() -> Call {
    let scopes = FIRST.scopes - 1;
    let members: Vec<Vec<u8>> =
        [scopes, scopes + 1].into_iter().flat_map(cases::deep).map(|form| rows::encode(&form)).collect();
    let stated: Vec<u32> = members.iter().map(|form| form.len() as u32).collect();
    let prelude = rows::encode(&cases::deep(1)[0]);
    let share = members.iter().map(|form| 4 * form.len()).max().expect("a member");
    Call { rooms: [4 * prelude.len(), share * members.len(), 8 * members.len()], prelude, members, stated }
}

/// Vectors of each refusal of the batch and of its prelude, and of each answer of each member.
pub fn vectors(comparison: &Comparison, seed: u64, sample: &mut Sample) {
    let drawn =
        (0..LOOKED).filter_map(|number| Call::draw(comparison, &mut Chance::new(seed.rotate_left(32) ^ number)));
    for call in [deep()].into_iter().chain(drawn) {
        let Some((answer, buffers, shown)) = call.expected(comparison) else { continue };
        let stated = call.stated.into_iter().flat_map(u32::to_le_bytes).collect();
        let vector = Vector {
            function: Function::Batch,
            number: 0,
            answer,
            inputs: vec![call.prelude, call.members.concat(), stated],
            lent: buffers.iter().map(|buffer| Lent::holding(buffer)).collect(),
        };
        sample.offer(shown, EACH, &vector);
    }
}
