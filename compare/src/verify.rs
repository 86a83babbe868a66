//! `wnt_check` and `wnt_check_with` beside a checker by the text of request R-4, on inputs with claims that are right, wrong or neither.

use crate::cases;
use crate::chance::Chance;
use crate::claims::{Reading, Verdict, verdict_as};
use crate::compare::{Case, Comparison};
use crate::damage::damage_as;
use crate::lent::{self, Lender, Needs, is_cleared};
use crate::library;
use crate::partner::Partner;
use crate::rows::{Answer, FIRST, HEADER, ROW, Row, Version};
use crate::vectors::{Function, Lent, Sample, Vector};
use crate::wrong;
use std::collections::BTreeMap;

/// The sizes of the two areas for version 1.
pub const SLOTS: usize = 2046;
pub const LINKS: usize = 3070;

/// Their sizes for a version.
pub fn sizes(version: Version) -> (usize, usize) {
    (2 * version.rows, 1024 + 2 * version.rows)
}

/// What the areas are filled with, to see what is left of it.
pub const SLOT: [u32; 6] = [7, 6, 5, 4, 3, 2];
pub const LINK: u16 = 0xa5a5;

#[derive(Clone, Copy, PartialEq, Eq, PartialOrd, Ord, Debug)]
enum Kind {
    /// What `wnt_resolve` writes.
    Ours,
    /// What the crate's tree becomes.
    Crates,
    /// With aliases placed, shared, named and added by chance.
    Partners,
    /// With an outer alias that goes through another.
    Through,
    /// With something changed.
    Spoilt,
    /// The input itself, or the output of another one.
    Others,
}

const KINDS: [Kind; 12] = [
    Kind::Ours,
    Kind::Crates,
    Kind::Partners,
    Kind::Partners,
    Kind::Partners,
    Kind::Through,
    Kind::Spoilt,
    Kind::Spoilt,
    Kind::Spoilt,
    Kind::Spoilt,
    Kind::Spoilt,
    Kind::Others,
];

struct Pair {
    kind: Kind,
    /// What the input is read as: of version 1, or by its header where areas are lent for both.
    version: Version,
    input: Case,
    claim: Vec<u8>,
}

/// What our resolver writes; of an input that it refuses, nothing.
fn ours(version: Version, form: &[u8]) -> Vec<u8> {
    let mut out = vec![0; version.output_size(form.len() / ROW)];
    let answer = if version == FIRST {
        library::resolve(form, &mut out)
    } else {
        library::resolve_with(form, &mut out, &mut Lender::new().areas_of(version))
    };
    let rows = if answer >> 32 == 0 { answer as usize } else { 0 };
    out.truncate(if rows == 0 { 0 } else { version.form_size(rows) });
    out
}

/// What a resolver writes.
type Writes<'a> = &'a dyn Fn(Version, &[u8]) -> Vec<u8>;

/// An input with a claim. Of an input that is refused any bytes will do.
fn pair(comparison: &Comparison, writes: Writes, chance: &mut Chance, lending: bool) -> Pair {
    let version = lent::version(lending, chance);
    let rows = comparison.form_of(version, chance);
    let form = if chance.percent(3) { damage_as(version, &rows, chance) } else { version.encode(&rows) };
    let version = if lending { lent::asked_for(&form) } else { FIRST };
    let input = Case { out_len: usize::MAX, ..Case::exact(form, chance) };
    let kind = chance.pick(&KINDS);
    let Answer::Accepted(resolved) = comparison.expected_as(version, &input) else {
        let claim = if chance.percent(50) { input.form.clone() } else { Vec::new() };
        return Pair { kind: Kind::Others, version, input, claim };
    };
    let claim = claim(comparison, writes, kind, (version, &input.form, &resolved), chance);
    Pair { kind, version, input, claim }
}

fn claim(
    comparison: &Comparison,
    writes: Writes,
    kind: Kind,
    (version, form, resolved): (Version, &[u8], &[Row]),
    chance: &mut Chance,
) -> Vec<u8> {
    let rows = version.decode(form);
    let input = Reading::of(&rows);
    match kind {
        Kind::Ours => writes(version, form),
        Kind::Crates => version.encode(resolved),
        Kind::Partners => version.encode(&Partner::claim(&input, chance, 0)),
        Kind::Through => version.encode(&Partner::claim(&input, chance, 100)),
        Kind::Spoilt => {
            let right = if chance.percent(50) { resolved.to_vec() } else { Partner::claim(&input, chance, 0) };
            wrong::spoilt(version, &right, &rows, chance)
        }
        Kind::Others if chance.percent(50) => form.to_vec(),
        Kind::Others => {
            let other = comparison.form_of(version, chance);
            writes(version, &version.encode(&other))
        }
    }
}

/// Lengths of the two areas: mostly as they must be, else longer or too short.
pub fn areas(chance: &mut Chance) -> (usize, usize) {
    areas_of(FIRST, chance)
}

/// The same for an input of this version.
pub fn areas_of(version: Version, chance: &mut Chance) -> (usize, usize) {
    let (slots, links) = sizes(version);
    match chance.below(40) {
        0 => (slots - 1, links),
        1 => (slots, links - 1),
        2 => (chance.below(slots), chance.below(links)),
        3..=10 => (slots + chance.below(9), links + chance.below(9)),
        _ => (slots, links),
    }
}

/// The verdict by the text where the areas are long enough or not: refusal 3 comes behind 1 and 2.
fn expected(comparison: &Comparison, pair: &Pair, enough: bool) -> Verdict {
    let verdict = verdict_as(pair.version, comparison, &pair.input, &pair.claim);
    let before = matches!(verdict, Verdict::Refused { number: 1 | 2, .. });
    if before || enough { verdict } else { Verdict::Refused { number: 3, place: 0 } }
}

/// Whether areas of these lengths are long enough for an input of this version.
pub fn are_enough(version: Version, slots: usize, links: usize) -> bool {
    let (least_slots, least_links) = sizes(version);
    slots >= least_slots && links >= least_links
}

/// One pair on both sides; what was expected, and whether it came out.
fn is_same(
    comparison: &Comparison,
    pair: &Pair,
    chance: &mut Chance,
    lender: Option<&mut Lender>,
) -> (Verdict, u64, bool) {
    let (slots, links) = areas_of(pair.version, chance);
    let (mut table, mut index) = (vec![SLOT; slots], vec![LINK; links]);
    let (form, enough) = (&pair.input.form, are_enough(pair.version, slots, links));
    let (found, cleared, enough) = match lender {
        Some(lender) => {
            let (needs, lengths) = (Needs::of(pair.version), Needs::of(pair.version).lengths(chance));
            let call =
                |areas: &mut library::Areas| library::check_with(form, &pair.claim, &mut table, &mut index, areas);
            let (found, cleared) = lender.call(needs, lengths, call);
            (found, cleared, enough && needs.are_met(lengths))
        }
        None => (library::check(form, &pair.claim, &mut table, &mut index), true, enough),
    };
    let wanted = expected(comparison, pair, enough);
    let (most, all) = sizes(pair.version);
    let clean = cleared && is_cleared(&table, most, [0; 6], SLOT) && is_cleared(&index, all, 0, LINK);
    (wanted, found, clean && found == wanted.packed())
}

/// Whether a claim that has to be right is called so.
fn is_kept(kind: Kind, verdict: Verdict) -> bool {
    let right = matches!(kind, Kind::Ours | Kind::Crates | Kind::Partners);
    !right || matches!(verdict, Verdict::Yes | Verdict::Refused { .. })
}

fn report(number: u64, pair: &Pair, wanted: Verdict, found: u64) {
    println!("pair {number} ({:?}): {wanted:?}, and {found:#x} by the library", pair.kind);
    pair.version.decode(&pair.input.form).iter().for_each(|row| println!("  {row}"));
    println!("  and the claim");
    pair.version.decode(&pair.claim).iter().enumerate().for_each(|(at, row)| println!("  {at}: {row}"));
}

/// What a verdict is counted as.
fn counted(verdict: Verdict) -> String {
    match verdict {
        Verdict::Yes => "yes".to_string(),
        Verdict::No { condition, .. } => format!("no by {condition}"),
        Verdict::Refused { number, .. } => format!("refused with {number}"),
    }
}

/// Checks `pairs` pairs, and prints a summary; answers whether there was no difference. Where areas are lent the inputs are of
/// both versions and rule sets.
pub fn run(comparison: &Comparison, seed: u64, pairs: u64, lending: bool) -> bool {
    let mut lender = lending.then(Lender::new);
    let mut tally: BTreeMap<(Kind, String), u64> = BTreeMap::new();
    for number in 0..pairs {
        let mut chance = Chance::new(seed.rotate_left(32) ^ number);
        let pair = pair(comparison, &ours, &mut chance, lending);
        let (wanted, found, same) = is_same(comparison, &pair, &mut chance, lender.as_mut());
        if !same || !is_kept(pair.kind, wanted) {
            report(number, &pair, wanted, found);
            return false;
        }
        *tally.entry((pair.kind, counted(wanted))).or_default() += 1;
    }
    for ((kind, verdict), count) in tally {
        println!("{kind:?} {verdict}: {count}");
    }
    println!("{pairs} pairs checked, seed {seed}: 0 differences");
    true
}

/// How many pairs are looked through for vectors, the most rows of an input and of a claim, and how many there are of each
/// kind.
const LOOKED: u64 = 100_000;
const FEW_ROWS: usize = 24;
const FEW_CLAIMED: usize = 60;
const EACH: usize = 12;

/// Vectors of each kind of claim with each verdict, of version 1, of inputs and claims that are too deep, and of areas that are
/// too short or longer. What ours writes is here what the crate makes of the form: no library takes part in vectors.
pub fn vectors(comparison: &Comparison, seed: u64, sample: &mut Sample) {
    for pair in deep() {
        offer(comparison, pair, (SLOTS, LINKS), sample);
    }
    let writes = |version: Version, form: &[u8]| comparison.resolved_as(version, form).unwrap_or_default();
    for number in 0..LOOKED {
        let mut chance = Chance::new(seed.rotate_left(32) ^ number);
        let pair = pair(comparison, &writes, &mut chance, false);
        let form = &pair.input.form;
        let small = form.len() <= HEADER + FEW_ROWS * ROW && pair.claim.len() <= HEADER + FEW_CLAIMED * ROW;
        if small && Version::of(form) == FIRST {
            offer(comparison, pair, areas(&mut chance), sample);
        }
    }
}

/// Inputs with one scope more than there may be, which are refused with 5, and claims with as many.
fn deep() -> Vec<Pair> {
    let root = FIRST.encode(&cases::deep(1)[0]);
    let pair = |form: &[u8], claim: &[u8]| {
        let input = Case { form: form.to_vec(), out_len: usize::MAX, fill: 0, choice: 0 };
        Pair { kind: Kind::Others, version: FIRST, input, claim: claim.to_vec() }
    };
    let deep = cases::deep(FIRST.scopes + 1).map(|rows| FIRST.encode(&rows));
    deep.iter().flat_map(|deep| [pair(deep, &root), pair(&root, deep)]).collect()
}

/// Takes a pair with areas of these lengths.
fn offer(comparison: &Comparison, pair: Pair, (slots, links): (usize, usize), sample: &mut Sample) {
    let verdict = expected(comparison, &pair, are_enough(pair.version, slots, links));
    let vector = Vector {
        function: Function::Check,
        number: 0,
        answer: verdict.packed(),
        inputs: vec![pair.input.form, pair.claim],
        lent: vec![Lent::cleared(slots, SLOTS), Lent::cleared(links, LINKS)],
    };
    sample.offer([format!("{:?} {}", pair.kind, counted(verdict))], EACH, &vector);
}
