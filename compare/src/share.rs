//! `wnt_share` and `wnt_share_with` on forms: what they refuse beside the resolver, and what they write by both checkers, with its
//! aliases counted by the names of the input.

use crate::cases;
use crate::chance::Chance;
use crate::claims::{Field, Reading, Verdict, verdict_as};
use crate::compare::{Case, Comparison, after};
use crate::damage::damage_as;
use crate::lent::{self, Lender, Needs, asked_for, is_cleared};
use crate::library;
use crate::rows::{Answer, DECL, FIRST, FIRST_INSERTED, REF, ROW, Version, decode, encode};
use crate::shared::resolved;
use crate::vectors::{self, FILLED, Function, Sample, Vector, said};
use crate::verify::{LINK, LINKS, SLOT, SLOTS, are_enough, areas, areas_of, sizes};
use std::collections::BTreeMap;

/// The code of a field that is an outer alias.
const OUTER_ALIAS: u8 = 11;

/// An outer alias: its scope, its space, and how many fields of the input stand before it in the scope.
type Alias = (usize, u8, usize);

/// What a call left.
struct Called {
    answer: u64,
    out: Vec<u8>,
}

/// The declarations further out that walked names reach, each once in a scope and before the first field that needs it.
fn needed(input: &Reading) -> Vec<Alias> {
    let mut first: BTreeMap<(usize, u8, usize), usize> = BTreeMap::new();
    let mut before: BTreeMap<usize, usize> = BTreeMap::new();
    for Field { scope, rows, .. } in &input.fields {
        let at = before.entry(*scope).or_default();
        for row in input.rows[rows.clone()].iter().filter(|row| (row.code, row.e, row.y) == (REF, 1, 0)) {
            let around = input.outward(*scope);
            let found = around.iter().enumerate().find_map(|(out, s)| Some((out, input.find(*s, row.b, row.x)?)));
            let (out, decl) = found.expect("the input is accepted");
            if out > 0 {
                first.entry((*scope, row.b, decl)).or_insert(*at);
            }
        }
        *at += 1;
    }
    let mut aliases: Vec<Alias> = first.into_iter().map(|((scope, space, _), at)| (scope, space, at)).collect();
    aliases.sort_unstable();
    aliases
}

/// The outer aliases that a resolved form has more than its input.
fn inserted(output: &Reading) -> Vec<Alias> {
    let mut aliases = Vec::new();
    let mut before: BTreeMap<usize, usize> = BTreeMap::new();
    for Field { scope, rows, .. } in &output.fields {
        let rows = &output.rows[rows.clone()];
        let at = before.entry(*scope).or_default();
        match rows.iter().find(|row| row.code == DECL && row.x >= FIRST_INSERTED) {
            Some(decl) if rows[0].b == OUTER_ALIAS => aliases.push((*scope, decl.b, *at)),
            Some(_) => {}
            None => *at += 1,
        }
    }
    aliases.sort_unstable();
    aliases
}

/// A form of this version, broken now and then.
fn form(comparison: &Comparison, version: Version, chance: &mut Chance) -> Vec<u8> {
    let rows = comparison.form_of(version, chance);
    if chance.percent(5) { damage_as(version, &rows, chance) } else { version.encode(&rows) }
}

/// The length of the output: mostly as it must be, else longer or too short.
fn length(version: Version, form: &[u8], chance: &mut Chance) -> usize {
    let size = version.output_size(form.len().saturating_sub(version.header) / ROW);
    match chance.below(20) {
        0 => size.saturating_sub(1),
        1 => chance.below(size + 1),
        2..=6 => size + chance.below(40),
        _ => size,
    }
}

/// A run over forms: where areas are lent, by `wnt_share_with` and what is lent areas besides.
struct Run<'c> {
    comparison: &'c Comparison,
    lender: Option<Lender>,
}

impl Run<'_> {
    /// The version that a form is read as.
    fn version(&self, form: &[u8]) -> Version {
        if self.lender.is_some() { asked_for(form) } else { FIRST }
    }

    /// What the resolver does with an output of that length.
    fn own(&mut self, form: &[u8], length: usize) -> Called {
        let (version, mut out) = (self.version(form), vec![FILLED; length]);
        let answer = lent::resolve(self.lender.as_mut(), version, form, &mut out);
        Called { answer, out }
    }

    /// What the library's checker says of a claim.
    fn checked(&mut self, form: &[u8], claim: &[u8]) -> u64 {
        let version = self.version(form);
        let (slots, links) = sizes(version);
        let (mut table, mut index) = (vec![SLOT; slots], vec![LINK; links]);
        match &mut self.lender {
            Some(lender) => library::check_with(form, claim, &mut table, &mut index, &mut lender.areas_of(version)),
            None => library::check(form, claim, &mut table, &mut index),
        }
    }

    /// Calls the function with an output of this length; what it left, whether an area was too small, and whether all are
    /// cleared.
    fn shared(&mut self, form: &[u8], length: usize, chance: &mut Chance) -> (Called, bool, bool) {
        let version = self.version(form);
        let (slots, links) = areas_of(version, chance);
        let (mut table, mut index, mut out) = (vec![SLOT; slots], vec![LINK; links], vec![FILLED; length]);
        let (answer, small, cleared) = match &mut self.lender {
            Some(lender) => {
                let (needs, size) = (Needs::of(version), ROW * version.rows);
                let (lengths, bytes) = (needs.lengths(chance), lent::length(size, chance));
                let mut marked = vec![FILLED; bytes];
                let call = |areas: &mut library::Areas| {
                    library::share_with(form, &mut out, &mut marked, &mut table, &mut index, areas)
                };
                let (answer, cleared) = lender.call(needs, lengths, call);
                (answer, bytes < size || !needs.are_met(lengths), cleared && is_cleared(&marked, size, 0, FILLED))
            }
            None => (library::share(form, &mut out, &mut table, &mut index), false, true),
        };
        let (most, all) = sizes(version);
        let clean = cleared && is_cleared(&table, most, [0; 6], SLOT) && is_cleared(&index, all, 0, LINK);
        (Called { answer, out }, small || !are_enough(version, slots, links), clean)
    }

    /// Whether what was written is what the second reading puts together, is accepted by both checkers and has the aliases that
    /// it must have, no more rows than our own output, and zeros behind it.
    fn is_right(&mut self, form: &[u8], own: &Called, shared: &Called, chance: &mut Chance) -> bool {
        let (version, rows) = (self.version(form), shared.answer as usize);
        let (claim, rest) = shared.out.split_at(version.form_size(rows));
        let zero = version.output_size(version.count(form)) - claim.len();
        let case = Case { out_len: usize::MAX, ..Case::exact(form.to_vec(), chance) };
        let (before, after) = (version.decode(form), version.decode(claim));
        let (input, output) = (Reading::of(&before), Reading::of(&after));
        rows <= own.answer as usize
            && claim == version.encode(&resolved(&input, true))
            && is_cleared(rest, zero, 0, FILLED)
            && self.checked(form, claim) == 0
            && verdict_as(version, self.comparison, &case, claim) == Verdict::Yes
            && needed(&input) == inserted(&output)
    }

    fn outcome(&mut self, form: &[u8], chance: &mut Chance) -> Outcome {
        let length = length(self.version(form), form, chance);
        let (shared, small, clean) = self.shared(form, length, chance);
        let own = self.own(form, if small { 0 } else { length });
        if !clean {
            return Outcome::Wrong;
        }
        if own.answer >> 32 != 0 {
            let kept = if small { vec![FILLED; length] } else { own.out };
            return if (own.answer, kept) == (shared.answer, shared.out) { Outcome::Refused } else { Outcome::Wrong };
        }
        if shared.answer >> 32 != 0 || !self.is_right(form, &own, &shared, chance) {
            return Outcome::Wrong;
        }
        Outcome::Shared { spared: (own.answer - shared.answer) / 3 }
    }
}

/// What one form came to.
enum Outcome {
    Refused,
    Shared { spared: u64 },
    Wrong,
}

/// Runs `forms` forms, and prints a summary; answers whether all came out right. Where areas are lent the forms are of both
/// versions and rule sets.
pub fn run(comparison: &Comparison, seed: u64, forms: u64, lending: bool) -> bool {
    let mut run = Run { comparison, lender: lending.then(Lender::new) };
    let (mut refused, mut written, mut sharing, mut spared) = (0, 0, 0, 0);
    for number in 0..forms {
        let mut chance = Chance::new(seed.rotate_left(32) ^ number);
        let form = form(comparison, lent::version(lending, &mut chance), &mut chance);
        match run.outcome(&form, &mut chance) {
            Outcome::Refused => refused += 1,
            Outcome::Shared { spared: count } => {
                written += 1;
                sharing += u64::from(count > 0);
                spared += count;
            }
            Outcome::Wrong => {
                println!("form {number} of seed {seed} is shared wrongly");
                run.version(&form).decode(&form).iter().for_each(|row| println!("  {row}"));
                return false;
            }
        }
    }
    println!(
        "{forms} forms, seed {seed}: {refused} refused as the resolver refuses them, {written} written and accepted by"
    );
    println!(
        "both checkers with the aliases that they must have, {sharing} of them with fewer than ours, {spared} spared in all"
    );
    true
}

/// How many forms are looked through for vectors, the most rows of one, and how many there are of each kind.
const LOOKED: u64 = 100_000;
const FEW_ROWS: usize = 30;
const EACH: usize = 6;

/// The answer to a form, and how many aliases it spares. What is put together with an alias for each reference must be what
/// the crate makes of the form.
fn expected(comparison: &Comparison, case: &Case) -> (Answer, usize) {
    match comparison.expected(case) {
        Answer::Accepted(rows) => {
            let input = decode(&case.form);
            let input = Reading::of(&input);
            assert!(resolved(&input, false) == rows, "the second reading and the crate differ");
            let shared = resolved(&input, true);
            let spared = (rows.len() - shared.len()) / 3;
            (Answer::Accepted(shared), spared)
        }
        refused => (refused, 0),
    }
}

/// Vectors of each refusal, with areas that are too short and longer, and of outputs with shared aliases and without.
pub fn vectors(comparison: &Comparison, seed: u64, sample: &mut Sample) {
    let deep = cases::deep(FIRST.scopes + 1).map(|rows| encode(&rows));
    let mut chance = Chance::new(seed);
    let drawn = (0..LOOKED).map(|number| form(comparison, FIRST, &mut Chance::new(seed.rotate_left(32) ^ number)));
    for form in deep.into_iter().chain(drawn.filter(|form| form.len() <= FIRST.form_size(FEW_ROWS))) {
        let (slots, links) = areas(&mut chance);
        let (length, small) = (length(FIRST, &form, &mut chance), slots < SLOTS || links < LINKS);
        let case = Case { form, out_len: if small { 0 } else { length }, fill: 0, choice: 0 };
        let (answer, spared) = expected(comparison, &case);
        let out = after(&answer, &case.form, vec![FILLED; length]);
        let kind = match (small, &answer) {
            (false, Answer::Accepted(rows)) => {
                let aliases = inserted(&Reading::of(rows)).len();
                format!("{} outer aliases, {} spared", aliases.min(3), spared.min(3))
            }
            (false, _) => said(answer.packed()),
            (true, _) => format!("{}, areas too short", said(answer.packed())),
        };
        let vector = Vector {
            function: Function::Share,
            number: 0,
            answer: answer.packed(),
            inputs: vec![case.form],
            lent: vec![
                vectors::Lent::holding(&out),
                vectors::Lent::cleared(slots, SLOTS),
                vectors::Lent::cleared(links, LINKS),
            ],
        };
        sample.offer([kind], EACH, &vector);
    }
}
