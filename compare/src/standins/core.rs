//! The core types that a component's tree holds, cut down to their references.

use super::parser::{Parse, Parser, Result};
use crate::Error;
use crate::component::Component;
use crate::token::{Id, Index, NameAnnotation, Span};

pub use crate::core_export::*;

macro_rules! parse_never {
    ($($name:ty)*) => ($(
        impl<'a> Parse<'a> for $name {
            fn parse(parser: Parser<'a>) -> Result<Self> {
                parser.parse()
            }
        }
    )*)
}

parse_never! { ModuleField<'a> Rec<'a> Type<'a> TypeDef<'a> Imports<'a> ItemSig<'a> ValType<'a> Producers<'a> }

/// A field of a core module: its inside is not ported, so modules are empty here.
#[derive(Debug)]
pub struct ModuleField<'a> {
    pub name: &'a str,
}

#[derive(Debug, Clone)]
pub struct Rec<'a> {
    pub span: Span,
    pub types: Vec<Type<'a>>,
}

#[derive(Debug, Clone)]
pub struct Type<'a> {
    pub span: Span,
    pub id: Option<Id<'a>>,
    pub name: Option<NameAnnotation<'a>>,
    pub def: TypeDef<'a>,
}

/// The references of one core type in row order, which document 01 takes as it stands.
#[derive(Debug, Clone)]
pub struct TypeDef<'a> {
    pub references: Vec<Index<'a>>,
}

#[derive(Debug, Clone)]
pub enum ValType<'a> {
    I32,
    I64,
    F32,
    F64,
    V128,
    Ref(RefType<'a>),
}

#[derive(Debug, Clone)]
pub struct RefType<'a> {
    pub heap: HeapType<'a>,
}

#[derive(Debug, Clone)]
pub enum HeapType<'a> {
    Abstract { shared: bool },
    Concrete(Index<'a>),
    Exact(Index<'a>),
}

#[derive(Debug, Clone)]
pub struct TypeUse<'a> {
    pub index: Option<Index<'a>>,
}

#[derive(Debug, Clone)]
pub enum TagType<'a> {
    Exception(TypeUse<'a>),
}

/// The cases without a reference hold nothing here.
#[derive(Debug, Clone)]
pub enum ItemKind<'a> {
    Func(TypeUse<'a>),
    FuncExact(TypeUse<'a>),
    Tag(TagType<'a>),
    Table(()),
    Memory(()),
    Global(()),
}

#[derive(Debug, Clone)]
pub struct ItemSig<'a> {
    pub kind: ItemKind<'a>,
}

#[derive(Debug, Clone)]
pub struct Imports<'a> {
    pub signatures: Vec<ItemSig<'a>>,
}

impl<'a> Imports<'a> {
    pub fn unique_sigs_mut(&mut self) -> impl Iterator<Item = &mut ItemSig<'a>> {
        self.signatures.iter_mut()
    }
}

#[derive(Debug)]
pub struct Producers<'a> {
    pub fields: Vec<&'a str>,
}

#[derive(Default)]
pub struct EncodeOptions;

impl EncodeOptions {
    pub fn encode_component(&self, component: &mut Component<'_>) -> Result<Vec<u8>, Error> {
        let message = "components are not encoded here".to_string();
        Err(Error::new(component.span, message))
    }
}

pub mod resolve {
    //! The part of the crate's core resolver that its component resolver calls.

    use super::{ModuleField, Type, TypeDef};
    use crate::Error;
    use crate::token::Index;

    pub fn resolve(_fields: &mut Vec<ModuleField<'_>>) -> Result<(), Error> {
        Ok(())
    }

    pub trait ResolveCoreType<'a> {
        fn resolve_type_name(&mut self, name: &mut Index<'a>) -> Result<u32, Error>;

        fn resolve_type(&mut self, ty: &mut Type<'a>) -> Result<(), Error> {
            self.resolve_type_def(&mut ty.def)
        }

        fn resolve_type_def(&mut self, def: &mut TypeDef<'a>) -> Result<(), Error> {
            for name in &mut def.references {
                self.resolve_type_name(name)?;
            }
            Ok(())
        }
    }
}
