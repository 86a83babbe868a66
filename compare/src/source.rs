//! Where the forms of a run come from: the fixed ones first, then random ones without end.

use crate::cases;
use crate::chance::Chance;
use crate::compare::Case;
use crate::damage::damage_as;
use crate::generate;
use crate::rows::{FIRST, Version};
use crate::shapes::Shapes;
use crate::sweep;

#[derive(Clone, Copy, PartialEq, Eq, Debug)]
pub enum Stage {
    Stated,
    Limits,
    Sweep,
    Random,
    Damaged,
}

/// One random form out of this many is damaged.
const DAMAGED: u64 = 4;

/// How many of the trees that a form of the sweep stands for are tried.
const TREES: usize = 3;

/// The forms of version 1 that do not depend on a seed, and with which stage they belong.
pub fn fixed(shapes: &Shapes) -> Vec<(Stage, Case)> {
    fixed_of(FIRST, shapes)
}

/// The same for this version.
pub fn fixed_of(version: Version, shapes: &Shapes) -> Vec<(Stage, Case)> {
    let mut chance = Chance::new(0);
    let mut cases = Vec::new();
    for stated in cases::stated() {
        let form = version.encode(&stated.rows);
        cases.push((Stage::Stated, Case::exact(form, &mut chance)));
    }
    cases.extend(cases::limits(version).into_iter().map(|case| (Stage::Limits, case)));
    for rows in sweep::forms(shapes) {
        let case = |_| (Stage::Sweep, Case::exact(version.encode(&rows), &mut chance));
        cases.extend((0..TREES).map(case));
    }
    cases
}

/// The random form of this number in the run of this seed.
pub fn random(shapes: &Shapes, seed: u64, number: u64) -> (Stage, Case) {
    random_of(FIRST, shapes, seed, number)
}

/// The same as a form of this version, within its limits or a little beyond.
pub fn random_of(version: Version, shapes: &Shapes, seed: u64, number: u64) -> (Stage, Case) {
    let mut chance = Chance::new(seed.rotate_left(32) ^ number);
    let rows = generate::form_of(version, shapes, chance.next());
    if number % DAMAGED == 0 {
        let form = damage_as(version, &rows, &mut chance);
        return (Stage::Damaged, Case::new(form, &mut chance));
    }
    (Stage::Random, Case::new(version.encode(&rows), &mut chance))
}
