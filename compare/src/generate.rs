//! Random well-formed forms, the same for the same seed: first rows by their shapes, then the operands.

use crate::chance::Chance;
use crate::rows::{CASE, CLOSE, DECL, EXPORT, FIELD, FIRST, FIRST_INSERTED, OPEN, OUTER, PATH, REF, Row, Version};
use crate::shapes::{COMPONENT, FIELDS, FOUR, Shape, Shapes, Want, allowed, values_of_e};
use std::collections::HashSet;

/// What a form is like: how large, how deep, how many names it has to choose from, how often it is wrong.
#[derive(Clone)]
struct Mood {
    fields: usize,
    depth: usize,
    rows: usize,
    repeat: usize,
    names: u32,
    first_name: u32,
    unnamed: usize,
    numbers: usize,
    paths: usize,
    outward: usize,
    faults: usize,
    opening: usize,
}

impl Mood {
    fn of(chance: &mut Chance) -> Mood {
        let names = chance.pick(&[2, 4, 8, 20, 60]);
        Mood {
            fields: chance.pick(&[1, 2, 3, 5, 9, 16, 40]),
            depth: chance.pick(&[1, 2, 3, 3, 4, 6, 32, 36]),
            rows: if chance.percent(2) { 950 } else { chance.pick(&[15, 30, 60, 60, 120, 250]) },
            repeat: chance.pick(&[20, 40, 60]),
            names,
            first_name: chance.pick(&[1, 1, 700, FIRST_INSERTED - names]),
            unnamed: chance.pick(&[0, 10, 40]),
            numbers: chance.pick(&[0, 10, 30]),
            paths: chance.pick(&[0, 20, 50]),
            outward: chance.pick(&[10, 40, 80]),
            faults: chance.pick(&[0, 0, 0, 1, 3, 20, 60]),
            opening: chance.pick(&[1, 3, 8]),
        }
    }

    /// The same for forms of version 2: some are deeper, a few far larger.
    fn larger(chance: &mut Chance) -> Mood {
        let mut mood = Mood::of(chance);
        mood.depth = chance.pick(&[mood.depth, mood.depth, 33, 64, 68]);
        if chance.percent(2) {
            mood.rows = chance.pick(&[1100, 2500, 6000, 16_300]);
            mood.fields = chance.pick(&[40, 400, 8000]);
            mood.names = chance.pick(&[60, 500, 4000]);
            mood.first_name = chance.pick(&[1, 700, FIRST_INSERTED - mood.names]);
        }
        mood
    }
}

/// A well-formed form of this version, though it may be too long or too deep.
pub fn form_of(version: Version, shapes: &Shapes, seed: u64) -> Vec<Row> {
    let mut chance = Chance::new(seed);
    let mood = if version == FIRST { Mood::of(&mut chance) } else { Mood::larger(&mut chance) };
    let mut sketch = Sketch { shapes, chance, mood, rows: Vec::new(), depth: 0 };
    let name = sketch.name();
    sketch.scope(COMPONENT, name);
    let Sketch { mut chance, mood, mut rows, .. } = sketch;
    Filling::of(&rows).fill(&mut rows, &mut chance, &mood);
    rows
}

/// The rows by their shapes, with names for declarations and none for references.
struct Sketch<'s> {
    shapes: &'s Shapes,
    chance: Chance,
    mood: Mood,
    rows: Vec<Row>,
    depth: usize,
}

impl Sketch<'_> {
    fn name(&mut self) -> u32 {
        if self.chance.percent(self.mood.unnamed) {
            return 0;
        }
        self.mood.first_name + self.chance.below(self.mood.names as usize) as u32
    }

    fn place(&mut self) -> u32 {
        match self.chance.below(16) {
            0 => 0,
            1 => u32::MAX,
            2 => self.chance.next() as u32,
            _ => self.rows.len() as u32 + 100,
        }
    }

    fn any_number(&mut self) -> u32 {
        match self.chance.below(4) {
            0 => self.chance.next() as u32,
            1 => self.chance.pick(&[0, 1, u32::MAX, FIRST_INSERTED, FIRST_INSERTED - 1]),
            _ => self.chance.below(20) as u32,
        }
    }

    fn scope(&mut self, kind: u8, name: u32) {
        self.rows.push(Row::new(OPEN, kind, 0, name, 0, 0));
        self.depth += 1;
        let mut taken = Vec::new();
        for _ in 0..self.chance.below(self.mood.fields + 1) {
            if self.rows.len() >= self.mood.rows {
                break;
            }
            self.field(kind, &mut taken);
        }
        self.depth -= 1;
        self.rows.push(Row::new(CLOSE, 0, 0, 0, 0, 0));
    }

    fn field_code(&mut self, kind: u8) -> u8 {
        let room = self.depth < self.mood.depth && self.rows.len() < self.mood.rows;
        if room && self.chance.below(10) < self.mood.opening {
            let openers: Vec<u8> = [6, 14, 15, 17].into_iter().filter(|f| allowed(kind, *f)).collect();
            if !openers.is_empty() {
                return self.chance.pick(&openers);
            }
        }
        loop {
            let field = 1 + self.chance.below(usize::from(FIELDS)) as u8;
            let opens = matches!(field, 6 | 14 | 15 | 17);
            if allowed(kind, field) && (room || !opens) {
                return field;
            }
        }
    }

    /// A field; `taken` are the names that its scope declares already, with their spaces.
    fn field(&mut self, kind: u8, taken: &mut Vec<(u8, u32)>) {
        let code = self.field_code(kind);
        let e = match values_of_e(code) {
            1 => 0,
            values => self.chance.below(usize::from(values)) as u16,
        };
        let head = Row::new(FIELD, code, e, 0, 0, self.place());
        self.rows.push(head);
        let shape = self.shapes.of(head);
        self.sample(shape, taken);
    }

    fn sample(&mut self, shape: &Shape, taken: &mut Vec<(u8, u32)>) {
        match shape {
            Shape::Never => unreachable!("no field is impossible"),
            Shape::Done => {}
            Shape::One(want) => self.row(*want, taken),
            Shape::Then(first, next) => {
                self.sample(first, taken);
                self.sample(next, taken);
            }
            Shape::Any(shapes) => {
                let choice = self.chance.below(shapes.len());
                self.sample(&shapes[choice], taken);
            }
            Shape::Many(shape) => {
                while self.chance.percent(self.mood.repeat) {
                    self.sample(shape, taken);
                }
            }
        }
    }

    fn row(&mut self, want: Want, taken: &mut Vec<(u8, u32)>) {
        let z = self.place();
        match want {
            Want::Decl(spaces) => {
                let space = self.chance.pick(&spaces.each().collect::<Vec<u8>>());
                let name = self.fresh_name(space, taken);
                self.rows.push(Row::new(DECL, space, 0, name, 0, z));
            }
            Want::Ref { spaces, paths } => {
                let space = self.chance.pick(&spaces.each().collect::<Vec<u8>>());
                let count = if paths { self.path_count(space) } else { 0 };
                self.rows.push(Row::new(REF, space, 0, 0, count, z));
                for _ in 0..count {
                    let export = self.any_number();
                    self.rows.push(Row::new(PATH, 0, 0, export, 0, 0));
                }
            }
            Want::Outer(space) => self.rows.push(Row::new(OUTER, space, 0, 0, 0, z)),
            Want::Export => {
                let export = self.any_number();
                self.rows.push(Row::new(EXPORT, 0, 0, export, 0, 0));
            }
            Want::Case => {
                let name = if self.chance.percent(20) { self.name() } else { self.rows.len() as u32 };
                self.rows.push(Row::new(CASE, 0, 0, name, 0, z));
            }
            Want::Open(kind) => {
                let name = self.rows.last().expect("a DECL stands before an inner scope").x;
                self.scope(kind, name);
            }
        }
    }

    fn path_count(&mut self, space: u8) -> u32 {
        if !self.chance.percent(self.mood.paths) {
            return 0;
        }
        let faulty = self.chance.percent(self.mood.faults);
        match space {
            4 | 6 => u32::from(faulty),
            0..=6 => 1,
            _ => 1 + self.chance.below(4) as u32,
        }
    }

    /// A name that the scope does not declare yet in this space, unless the form is faulty.
    fn fresh_name(&mut self, space: u8, taken: &mut Vec<(u8, u32)>) -> u32 {
        let mut name = self.name();
        if !self.chance.percent(self.mood.faults / 4) {
            let tries = 8;
            for _ in 0..tries {
                if !taken.contains(&(space, name)) {
                    break;
                }
                name = self.name();
            }
            if taken.contains(&(space, name)) {
                name = 0;
            }
        }
        if name != 0 {
            taken.push((space, name));
        }
        name
    }
}

/// A scope of a sketch: what surrounds it, its name, what it declares in each space.
struct Declared {
    around: Option<usize>,
    name: u32,
    names: [Vec<u32>; 13],
}

/// Which names each scope has, and in which scope each row stands.
struct Filling {
    scopes: Vec<Declared>,
    scope_of: Vec<usize>,
}

impl Filling {
    fn of(rows: &[Row]) -> Filling {
        let mut filling = Filling { scopes: Vec::new(), scope_of: Vec::new() };
        let mut open: Vec<usize> = Vec::new();
        for row in rows {
            match row.code {
                OPEN => {
                    let around = open.last().copied();
                    open.push(filling.scopes.len());
                    filling.scopes.push(Declared { around, name: row.x, names: Default::default() });
                }
                CLOSE => {
                    filling.scope_of.push(open.pop().expect("scopes close once"));
                    continue;
                }
                DECL if row.x != 0 => {
                    let here = *open.last().expect("a scope is open");
                    filling.scopes[here].names[usize::from(row.b)].push(row.x);
                }
                _ => {}
            }
            filling.scope_of.push(*open.last().expect("a scope is open"));
        }
        filling
    }

    fn fill(&self, rows: &mut [Row], chance: &mut Chance, mood: &Mood) {
        for (row, scope) in rows.iter_mut().zip(&self.scope_of) {
            match row.code {
                REF => self.fill_ref(row, *scope, chance, mood),
                OUTER => self.fill_outer(row, *scope, chance, mood),
                _ => {}
            }
        }
    }

    fn names_in(&self, scope: usize, space: u8) -> &[u32] {
        &self.scopes[scope].names[usize::from(space)]
    }

    fn outward(&self, scope: usize) -> Vec<usize> {
        std::iter::successors(Some(scope), |at| self.scopes[*at].around).collect()
    }

    /// A name of this space that some scope further out declares and this one does not.
    fn name_outside(&self, scope: usize, space: u8, chance: &mut Chance) -> Option<u32> {
        let here: HashSet<u32> = self.names_in(scope, space).iter().copied().collect();
        let around = self.outward(scope).split_off(1);
        let names = around.iter().flat_map(|s| self.names_in(*s, space));
        let hidden: Vec<u32> = names.copied().filter(|name| !here.contains(name)).collect();
        (!hidden.is_empty()).then(|| chance.pick(&hidden))
    }

    fn fill_ref(&self, row: &mut Row, scope: usize, chance: &mut Chance, mood: &Mood) {
        let space = match (row.y, row.b) {
            (0, space) => space,
            (_, 0..=6) => 6,
            _ => 10,
        };
        let faulty = chance.percent(mood.faults);
        let walks_out = row.y == 0 && FOUR.has(space);
        let here = self.names_in(scope, space);
        let name = if faulty && chance.percent(50) {
            Some(mood.first_name + chance.below(mood.names as usize) as u32)
        } else if (walks_out || faulty) && chance.percent(mood.outward) {
            self.name_outside(scope, space, chance)
        } else if here.is_empty() || chance.percent(mood.numbers) {
            None
        } else {
            Some(chance.pick(here))
        };
        match name {
            Some(name) => (row.e, row.x) = (1, name),
            None => row.x = small_or_any(chance),
        }
    }

    /// The outer as a number or a name, then the index in that scope as a number or a name.
    fn fill_outer(&self, row: &mut Row, scope: usize, chance: &mut Chance, mood: &Mood) {
        let around = self.outward(scope);
        let faulty = chance.percent(mood.faults);
        let count = chance.below(around.len() + if faulty { 3 } else { 0 });
        let target = around.get(count).copied();
        let named = target.map_or(0, |target| self.scopes[target].name);
        row.x = count as u32;
        if named != 0 && chance.percent(50) {
            (row.e, row.x) = (1, named);
        } else if faulty && chance.percent(50) {
            (row.e, row.x) = (1, mood.first_name);
        }
        let meant = if row.e == 1 { around.iter().copied().find(|s| self.scopes[*s].name == row.x) } else { target };
        let names = meant.map_or(&[][..], |meant| self.names_in(meant, row.b));
        if faulty && chance.percent(60) {
            (row.e, row.y) = (row.e | 2, mood.first_name + chance.below(mood.names as usize) as u32);
        } else if !names.is_empty() && chance.percent(70) {
            (row.e, row.y) = (row.e | 2, chance.pick(names));
        } else {
            row.y = small_or_any(chance);
        }
    }
}

fn small_or_any(chance: &mut Chance) -> u32 {
    if chance.percent(80) { chance.below(8) as u32 } else { chance.next() as u32 }
}
