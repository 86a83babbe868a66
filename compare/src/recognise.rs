//! Refusals 1 to 5 of document 01: which bytes are a form, and where others stop being one.

use crate::rows::{CLOSE, DECL, FIELD, OPEN, REF, Row, Version};
use crate::shapes::{COMPONENT, Shape, Shapes, Want, allowed, sound_field, sound_path};

/// A refusal number and its place.
pub type Refusal = (u32, u32);

/// An open scope: its kind and, once a field has begun, what may still come in that field.
struct Scope {
    kind: u8,
    field: Option<OpenField>,
}

struct OpenField {
    rest: Shape,
    declared: u32,
}

struct Reading<'s> {
    shapes: &'s Shapes,
    most: usize,
    scopes: Vec<Scope>,
    paths: u32,
}

enum Bad {
    Row,
    Depth,
}

/// The rows of a form of this version that can be resolved into an output of this length.
pub fn recognise_as(version: Version, shapes: &Shapes, form: &[u8], out_len: usize) -> Result<Vec<Row>, Refusal> {
    if !version.begins(form) {
        return Err((1, 0));
    }
    let count = sized(version, form)?;
    if out_len < version.output_size(count) {
        return Err((3, 0));
    }
    let rows = version.decode(form);
    read_within(shapes, &rows, version.scopes).map(|()| rows)
}

/// The row count that a header of this version states, if it may and the form is as long.
pub fn sized(version: Version, form: &[u8]) -> Result<usize, Refusal> {
    let count = version.count(form);
    let sound = 0 < count && count <= version.rows && form.len() == version.form_size(count);
    if sound { Ok(count) } else { Err((2, 0)) }
}

/// Refusals 4 and 5, where at most `most` scopes may be open.
pub fn read_within(shapes: &Shapes, rows: &[Row], most: usize) -> Result<(), Refusal> {
    let mut reading = Reading { shapes, most, scopes: Vec::new(), paths: 0 };
    for (place, row) in rows.iter().enumerate() {
        reading.row(place, *row).map_err(|bad| match bad {
            Bad::Row => (4, place as u32),
            Bad::Depth => (5, place as u32),
        })?;
    }
    if reading.scopes.is_empty() { Ok(()) } else { Err((4, rows.len() as u32)) }
}

fn only_if(sound: bool) -> Result<(), Bad> {
    if sound { Ok(()) } else { Err(Bad::Row) }
}

impl Reading<'_> {
    fn row(&mut self, place: usize, row: Row) -> Result<(), Bad> {
        if place == 0 {
            only_if(Want::Open(COMPONENT).fits(row))?;
            return self.open(COMPONENT);
        }
        if self.paths > 0 {
            self.paths -= 1;
            return only_if(sound_path(row));
        }
        let scope = self.scopes.last_mut().ok_or(Bad::Row)?;
        let complete = scope.field.as_ref().is_none_or(|field| field.rest.may_end());
        match row.code {
            FIELD => {
                only_if(complete && sound_field(row) && allowed(scope.kind, row.b))?;
                scope.field = Some(OpenField { rest: self.shapes.of(row).clone(), declared: 0 });
                Ok(())
            }
            CLOSE => {
                only_if(complete && row == Row { code: CLOSE, ..Row::default() })?;
                self.scopes.pop();
                Ok(())
            }
            _ => self.part(row),
        }
    }

    /// A row inside the field at hand.
    fn part(&mut self, row: Row) -> Result<(), Bad> {
        let field = self.scopes.last_mut().and_then(|scope| scope.field.as_mut()).ok_or(Bad::Row)?;
        field.rest = field.rest.after(row);
        only_if(!matches!(field.rest, Shape::Never))?;
        match row.code {
            DECL => field.declared = row.x,
            REF => self.paths = row.y,
            OPEN => {
                only_if(row.x == field.declared)?;
                return self.open(row.b);
            }
            _ => {}
        }
        Ok(())
    }

    fn open(&mut self, kind: u8) -> Result<(), Bad> {
        if self.scopes.len() == self.most {
            return Err(Bad::Depth);
        }
        self.scopes.push(Scope { kind, field: None });
        Ok(())
    }
}
