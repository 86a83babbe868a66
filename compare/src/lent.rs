//! `wnt_resolve_with` beside the crate, on forms of both versions: its answer, its output and its working areas.

use crate::chance::Chance;
use crate::compare::{Case, Comparison, after};
use crate::library::{self, Areas, Slot};
use crate::rows::{Answer, FIRST, NEWER, RULES_AT, SECOND, Version};
use crate::run::{is_form, stated_cases_hold};
use crate::source::{self, Stage};
use crate::tally::Tally;
use crate::vectors::{self, FILLED, Function, Sample, Vector, said};
use std::time::Instant;

/// A rule set that there is not.
const NONE: u8 = 2;

/// The most elements that an area is longer than it must be.
const MORE: usize = 9;

/// How long the areas are, in elements: two tables, the index of each, and the ends of fields.
pub type Lengths = [usize; 5];

/// For which forms areas are lent: those of a version, by themselves or inside the root of a prelude, whose names are then in
/// the second table too.
#[derive(Clone, Copy)]
pub struct Needs {
    version: Version,
    inside: bool,
}

impl Needs {
    pub fn of(version: Version) -> Needs {
        Needs { version, inside: false }
    }

    pub fn inside(version: Version) -> Needs {
        Needs { version, inside: true }
    }

    /// The sizes of the areas.
    fn sizes(self) -> Lengths {
        let slots = self.version.rows + 1;
        let more = if self.inside { slots } else { 0 };
        [slots, slots + more, 2 * slots, 2 * slots + more, slots]
    }

    /// Lengths that are exact, longer, for the other version or, now and then, too short.
    pub fn lengths(self, chance: &mut Chance) -> Lengths {
        let mut lengths = self.sizes();
        let one = chance.below(5);
        match chance.below(40) {
            0 => lengths[one] -= 1,
            1 => lengths[one] = chance.below(lengths[one]),
            2 => lengths = [0; 5],
            3 => lengths = Needs { version: FIRST, ..self }.sizes(),
            4..=5 => lengths = Needs { version: SECOND, ..self }.sizes(),
            6..=10 => lengths[one] += 1 + chance.below(MORE),
            _ => {}
        }
        lengths
    }

    /// Whether areas of these lengths are large enough.
    pub fn are_met(self, lengths: Lengths) -> bool {
        self.sizes().iter().zip(lengths).all(|(size, length)| length >= *size)
    }
}

/// The version of a random form: where areas are lent mostly the second, under either rule set.
pub fn version(lending: bool, chance: &mut Chance) -> Version {
    if lending { chance.pick(&[FIRST, SECOND, SECOND, NEWER, NEWER]) } else { FIRST }
}

/// A form with its output, and the lengths of its areas.
pub struct Lent {
    pub case: Case,
    pub lengths: Lengths,
}

impl Lent {
    fn new(case: Case, chance: &mut Chance) -> Lent {
        Lent { lengths: Needs::of(Version::of(&case.form)).lengths(chance), case }
    }

    fn exact(case: Case) -> Lent {
        Lent { lengths: Needs::of(Version::of(&case.form)).sizes(), case }
    }

    /// The version that is asked for, and the form as one that is answered alike: without room where an area is too small.
    pub fn asked(&self) -> (Version, Case) {
        let version = asked_for(&self.case.form);
        let out_len = if Needs::of(version).are_met(self.lengths) { self.case.out_len } else { 0 };
        (version, Case { out_len, ..self.case.clone() })
    }

    /// What differs on the library's side from this answer, if something does.
    pub fn differs(&self, lender: &mut Lender, answer: &Answer) -> Option<&'static str> {
        let form = &self.case.form;
        let mut out = self.case.pattern();
        let wanted = after(answer, form, out.clone());
        let call = |areas: &mut Areas| library::resolve_with(form, &mut out, areas);
        let (packed, cleared) = lender.call(Needs::of(asked_for(form)), self.lengths, call);
        match (packed == answer.packed(), out == wanted, cleared) {
            (false, _, _) => Some("the answer"),
            (_, false, _) => Some("the output"),
            (_, _, false) => Some("a working area"),
            _ => None,
        }
    }
}

/// What is lent, filled before each call so that a change shows.
pub struct Lender {
    slots: [Vec<Slot>; 2],
    links: [Vec<u16>; 2],
    ends: Vec<u32>,
}

const SLOT: Slot = [0xa5a5_0001; 6];
const LINK: u16 = 0xa5a5;
const END: u32 = 0xa5a5_0002;

/// Whether the first `size` elements are zero, and those behind as they were filled. Whole parts are looked at in one go, since
/// the areas of version 2 are long.
pub fn is_cleared<T: PartialEq>(area: &[T], size: usize, zero: T, filling: T) -> bool {
    let (front, behind) = area.split_at(size.min(area.len()));
    let is_all =
        |part: &[T], held: &T| part.chunks(1024).all(|some| some.iter().fold(true, |same, one| same & (one == held)));
    is_all(front, &zero) && is_all(behind, &filling)
}

/// The length of an area: mostly its size, else longer or too short.
pub fn length(size: usize, chance: &mut Chance) -> usize {
    match chance.below(40) {
        0 => size - 1,
        1 => chance.below(size),
        2..=8 => size + chance.below(MORE),
        _ => size,
    }
}

/// What the library resolves a form of this version into: by `wnt_resolve`, or in areas where they are lent.
pub fn resolve(lender: Option<&mut Lender>, version: Version, form: &[u8], out: &mut [u8]) -> u64 {
    match lender {
        Some(lender) => library::resolve_with(form, out, &mut lender.areas_of(version)),
        None => library::resolve(form, out),
    }
}

impl Lender {
    pub fn new() -> Lender {
        let [entered, names, known, chains, ends] = Needs::inside(SECOND).sizes().map(|size| size + MORE);
        Lender {
            slots: [vec![SLOT; entered], vec![SLOT; names]],
            links: [vec![LINK; known], vec![LINK; chains]],
            ends: vec![END; ends],
        }
    }

    /// The areas that a form of this version needs.
    pub fn areas_of(&mut self, version: Version) -> Areas<'_> {
        self.areas(Needs::of(version).sizes())
    }

    /// The areas, of these lengths.
    fn areas(&mut self, [entered, names, known, chains, ends]: Lengths) -> Areas<'_> {
        let ([tables, others], [indexes, more]) = (&mut self.slots, &mut self.links);
        Areas {
            entered: &mut tables[..entered],
            names: &mut others[..names],
            known: &mut indexes[..known],
            chains: &mut more[..chains],
            ends: &mut self.ends[..ends],
        }
    }

    /// Calls the library in areas that are just large enough.
    pub fn call_exactly(&mut self, needs: Needs, call: impl FnOnce(&mut Areas) -> u64) -> (u64, bool) {
        self.call(needs, needs.sizes(), call)
    }

    /// Calls the library in areas of these lengths, which are filled before; answers whether they are cleared after.
    pub fn call(&mut self, needs: Needs, lengths: Lengths, call: impl FnOnce(&mut Areas) -> u64) -> (u64, bool) {
        let mut areas = self.areas(lengths);
        areas.entered.fill(SLOT);
        areas.names.fill(SLOT);
        areas.known.fill(LINK);
        areas.chains.fill(LINK);
        areas.ends.fill(END);
        let answer = call(&mut areas);
        let [entered, names, known, chains, ends] = needs.sizes();
        let cleared = is_cleared(areas.entered, entered, [0; 6], SLOT)
            && is_cleared(areas.names, names, [0; 6], SLOT)
            && is_cleared(areas.known, known, 0, LINK)
            && is_cleared(areas.chains, chains, 0, LINK)
            && is_cleared(areas.ends, ends, 0, END);
        (answer, cleared)
    }
}

/// The version that a header asks for; the first where it is of none.
pub fn asked_for(form: &[u8]) -> Version {
    [SECOND, NEWER].into_iter().find(|version| version.begins(form)).unwrap_or(FIRST)
}

/// The answer by documents 01 and 02 for refusals 1 to 5, by the crate for everything else.
fn expected(comparison: &Comparison, lent: &Lent) -> Answer {
    let (version, case) = lent.asked();
    comparison.expected_as(version, &case)
}

/// The forms that do not depend on a seed, and for each limit's form areas that are one element short or long.
fn fixed(comparison: &Comparison) -> Vec<(Stage, Lent)> {
    let mut all = Vec::new();
    for version in [FIRST, SECOND] {
        for (stage, case) in source::fixed_of(version, &comparison.shapes) {
            if stage == Stage::Stated {
                let mut one_off = Vec::new();
                for area in 0..5 {
                    let sizes = Needs::of(version).sizes();
                    for length in [0, sizes[area] - 1, sizes[area] + 1] {
                        let mut lengths = sizes;
                        lengths[area] = length;
                        one_off.push((stage, Lent { case: case.clone(), lengths }));
                    }
                }
                all.extend(one_off);
            }
            all.push((stage, Lent::exact(case)));
        }
    }
    all
}

/// The random form of this number: three of four are of version 2.
fn random(comparison: &Comparison, seed: u64, number: u64) -> (Stage, Lent) {
    let version = if number % 16 < 4 { FIRST } else { SECOND };
    let (stage, mut case) = source::random_of(version, &comparison.shapes, seed, number);
    // Damage may ask for rule set 1, which has a comparison of its own (`newer`): here it asks for none.
    if NEWER.begins(&case.form) {
        case.form[RULES_AT] = NONE;
    }
    let mut chance = Chance::new(!seed ^ number.rotate_left(32));
    (stage, Lent::new(case, &mut chance))
}

/// What is counted besides: forms of version 2, those beyond the rows or the scopes of version 1, and the largest.
#[derive(Default)]
struct Large {
    second: u64,
    longer: u64,
    deeper: u64,
    most: usize,
}

impl Large {
    fn count(&mut self, form: &[u8], answer: &Answer) {
        let accepted = matches!(answer, Answer::Accepted(_) | Answer::Refused { number: 6.., .. });
        if asked_for(form) == SECOND {
            self.second += 1;
            if accepted {
                let rows = SECOND.count(form);
                self.longer += u64::from(rows > FIRST.rows);
                self.deeper += u64::from(depth(form) > FIRST.scopes);
                self.most = self.most.max(rows);
            }
        }
    }
}

/// The most scopes of a form of version 2 that are open at once.
fn depth(form: &[u8]) -> usize {
    let (mut open, mut most) = (0usize, 0);
    for row in form[SECOND.header..].chunks_exact(16) {
        match row[0] {
            7 => open += 1,
            8 => open -= 1,
            _ => {}
        }
        most = most.max(open);
    }
    most
}

/// Compares `count` forms, the fixed ones first, and prints a summary; answers whether there was no difference.
pub fn run(comparison: &Comparison, seed: u64, count: u64) -> bool {
    if !stated_cases_hold(comparison) {
        return false;
    }
    let start = Instant::now();
    let (mut tally, mut large, mut lender) = (Tally::default(), Large::default(), Lender::new());
    let forms = fixed(comparison).into_iter().chain((0..).map(|number| random(comparison, seed, number)));
    for (number, (stage, lent)) in forms.take(count as usize).enumerate() {
        let answer = expected(comparison, &lent);
        let differs = lent.differs(&mut lender, &answer);
        tally.count(stage, &lent.case, &answer);
        large.count(&lent.case.form, &answer);
        if !is_form(stage, &answer) {
            println!("form {number} of stage {stage:?} was to be well-formed and is not");
            return false;
        }
        if let Some(what) = differs {
            let Lent { case, lengths } = lent;
            println!(
                "form {number} of stage {stage:?}: {what} differs; areas of {lengths:?}, output of {}",
                case.out_len
            );
            println!("expected {:#x}; the form: {:?}", answer.packed(), case.form);
            return false;
        }
        if tally.forms % 20_000 == 0 {
            eprintln!("{} forms in {} s, no difference so far", tally.forms, start.elapsed().as_secs());
        }
    }
    let Large { second, longer, deeper, most } = large;
    println!("{}", tally.summary());
    println!(
        "version 2: {second} forms; well-formed with more than {} rows {longer}, with more than {} scopes {deeper}; the largest has {most} rows",
        FIRST.rows, FIRST.scopes
    );
    println!("{} forms compared in {:.1} s, 0 differences", tally.forms, start.elapsed().as_secs_f64());
    true
}

/// How many random forms are looked through for vectors, the most rows of one and of a form at the limits, and how many
/// there are of each kind.
const LOOKED: u64 = 40_000;
const FEW_ROWS: usize = 16;
const DEEP_ROWS: usize = 260;
const EACH: usize = 2;

/// Vectors of each answer in either version, and of areas that are shorter or longer than they must be.
pub fn vectors(comparison: &Comparison, seed: u64, sample: &mut Sample) {
    let forms = fixed(comparison).into_iter().chain((0..LOOKED).map(|number| random(comparison, seed, number)));
    for (stage, lent) in forms {
        let most = if stage == Stage::Limits { DEEP_ROWS } else { FEW_ROWS };
        if lent.case.form.len() <= SECOND.form_size(most) {
            lent.offer(&expected(comparison, &lent), sample);
        }
    }
}

impl Lent {
    fn offer(&self, answer: &Answer, sample: &mut Sample) {
        let Lent { case, lengths } = self;
        let sizes = Needs::of(asked_for(&case.form)).sizes();
        let out = after(answer, &case.form, vec![FILLED; case.out_len]);
        let areas = sizes.into_iter().zip(*lengths).map(|(size, length)| vectors::Lent::cleared(length, size));
        let vector = Vector {
            function: Function::ResolveWith,
            number: 0,
            answer: answer.packed(),
            inputs: vec![case.form.clone()],
            lent: [vectors::Lent::holding(&out)].into_iter().chain(areas).collect(),
        };
        let shorter = sizes.iter().zip(lengths).position(|(size, length)| length < size);
        let longer = sizes.iter().zip(lengths).position(|(size, length)| length > size);
        let kind = match (shorter, longer) {
            (Some(area), _) => format!("area {area} is short"),
            (_, Some(area)) => format!("area {area} is long"),
            _ => said(answer.packed()),
        };
        sample.offer([format!("version {}, {kind}", asked_for(&case.form).number)], EACH, &vector);
    }
}
