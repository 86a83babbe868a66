//! Builds the driver of `examples/driver`, row by row, resolves it, and prints how many rows the resolved form has.

use wnt::{component, Field, Name, Operand, Scope, Space};

const fn name(number: u32) -> Name {
    match Name::new(number) {
        Some(name) => name,
        None => panic!("no name has that number"),
    }
}

const METER: Name = name(1);
const REGISTERS: Name = name(2);
const DECODE: Name = name(3);
const DECODERS_TYPE: Name = name(4);
const DECODERS: Name = name(5);
const FLOAT_BE: Name = name(6);
const FLOAT_CDAB: Name = name(7);
const DRIVER: Name = name(8);
const DECODER: Name = name(9);
const CODE: Name = name(10);
const RUNNING: Name = name(11);
const SCALE: Name = name(12);
const POWER: Name = name(13);

/// The whole form; the binding is that of `driver.txt`.
pub fn driver() -> Vec<u8> {
    let by = Operand::Name;
    component(METER, |root| {
        root.field(Field::DefinedType, 10).declare(Space::Type, REGISTERS, 10);
        root.field(Field::FuncType, 20).declare(Space::Type, DECODE, 20).refer(Space::Type, by(REGISTERS), 21);
        root.field(Field::InstanceType, 30).declare(Space::Type, DECODERS_TYPE, 30).scope(Scope::InstanceType, |t| {
            for place in [31, 33] {
                t.field(Field::ExportDeclaration, place).declare(Space::Func, None, place);
                t.refer(Space::Type, by(DECODE), place + 1);
            }
        });
        root.field(Field::Import, 40).declare(Space::Instance, DECODERS, 40).refer(Space::Type, by(DECODERS_TYPE), 41);
        for (func, place, export) in [(FLOAT_BE, 50, 1), (FLOAT_CDAB, 52, 2)] {
            root.field(Field::AliasExport, place).declare(Space::Func, func, place);
            root.refer(Space::Instance, by(DECODERS), place + 1).export(export);
        }
        root.field(Field::Component, 60).declare(Space::Component, DRIVER, 60).scope(Scope::Component, |c| {
            c.field(Field::Import, 61).declare(Space::Func, DECODER, 61).refer(Space::Type, by(DECODE), 62);
            c.field(Field::CoreModule, 63).declare(Space::CoreModule, CODE, 63);
            c.field(Field::CoreInstantiate, 64).declare(Space::CoreInstance, RUNNING, 64);
            c.refer(Space::CoreModule, by(CODE), 65);
            c.field(Field::Lift, 66).declare(Space::Func, SCALE, 66).refer(Space::Type, by(DECODE), 67);
            c.refer_by_path(Space::CoreFunc, by(RUNNING), &[3], 68);
            c.field(Field::Export, 72).declare(Space::Func, None, 72).refer(Space::Func, by(DECODER), 73);
            c.field(Field::Export, 74).declare(Space::Func, None, 74).refer(Space::Func, by(SCALE), 75);
        });
        root.field(Field::Instantiate, 69).declare(Space::Instance, POWER, 69);
        root.refer(Space::Component, by(DRIVER), 71).refer(Space::Func, by(FLOAT_BE), 70);
        root.field(Field::Export, 80).declare(Space::Instance, None, 80).refer(Space::Instance, by(POWER), 81);
    })
    .expect("the driver has few rows")
}

fn main() {
    match wnt::resolve(&driver()) {
        Ok(form) => println!("{} rows", wnt::rows(&form).count()),
        Err(refusal) => println!("{refusal}"),
    }
}
