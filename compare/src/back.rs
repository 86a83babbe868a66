//! Writes the rows of a tree that the crate has resolved.
//!
//! The FIELD and DECL rows of a field of the input are taken from the input, since the tree does not keep
//! every place; every reference, every number and everything that was inserted comes from the tree.

use crate::component::*;
use crate::core;
use crate::rows::{CASE, CLOSE, DECL, EXPORT, FIELD, FIRST_INSERTED, OPEN, OUTER, REF, Row, SECOND};
use crate::token::{Id, Index, Span};
use std::collections::HashMap;

mod funcs;

/// The most names that one run can insert: each uses up a row of the input, or of a prelude and a member in one tree.
const MOST_INSERTED: u32 = 2 * SECOND.rows as u32;

/// The number k of each name that the crate generates, counted from 0.
pub struct Generated {
    numbers: HashMap<Id<'static>, u32>,
}

impl Generated {
    pub fn new() -> Generated {
        let id = |k| Id::gensym(Span::from_offset(0), k + 1);
        Generated { numbers: (0..MOST_INSERTED).map(|k| (id(k), k)).collect() }
    }

    fn name<'a>(&'a self, id: Id<'a>) -> u32 {
        let numbers: &HashMap<Id<'a>, u32> = &self.numbers;
        match numbers.get(&id) {
            Some(k) => FIRST_INSERTED + k,
            None => text_number(id.name()),
        }
    }
}

fn text_number(text: &str) -> u32 {
    text.parse().expect("names and export names are numbers written out")
}

/// The rows of the resolved tree that was built from `input`.
pub fn rows(component: &Component<'_>, input: &[Row], generated: &Generated) -> Vec<Row> {
    let ComponentKind::Text(fields) = &component.kind else { unreachable!("trees from rows are text") };
    let mut writer = Writer { input, at: 0, out: Vec::with_capacity(input.len()), generated };
    writer.scope(fields, component_alias, Writer::component_field);
    writer.out
}

struct Writer<'a> {
    input: &'a [Row],
    at: usize,
    out: Vec<Row>,
    generated: &'a Generated,
}

fn z(span: Span) -> u32 {
    span.offset() as u32
}

/// The alias that a field is, if it is one that the crate inserted.
fn inserted<'t, 'a>(alias: Option<&'t Alias<'a>>) -> Option<&'t Alias<'a>> {
    alias.filter(|alias| alias.id.is_some_and(|id| id.is_gensym()))
}

fn component_alias<'t, 'a>(field: &'t ComponentField<'a>) -> Option<&'t Alias<'a>> {
    match field {
        ComponentField::Alias(alias) => Some(alias),
        _ => None,
    }
}

fn component_type_alias<'t, 'a>(field: &'t ComponentTypeDecl<'a>) -> Option<&'t Alias<'a>> {
    match field {
        ComponentTypeDecl::Alias(alias) => Some(alias),
        _ => None,
    }
}

fn instance_type_alias<'t, 'a>(field: &'t InstanceTypeDecl<'a>) -> Option<&'t Alias<'a>> {
    match field {
        InstanceTypeDecl::Alias(alias) => Some(alias),
        _ => None,
    }
}

fn module_type_alias<'t, 'a>(field: &'t ModuleTypeDecl<'a>) -> Option<&'t Alias<'a>> {
    match field {
        ModuleTypeDecl::Alias(alias) => Some(alias),
        _ => None,
    }
}

/// Scopes, and rows in general.
impl<'a> Writer<'a> {
    fn copy(&mut self) {
        self.out.push(self.input[self.at]);
        self.at += 1;
    }

    fn code(&self) -> u8 {
        self.input[self.at].code
    }

    fn scope<T>(
        &mut self,
        fields: &[T],
        alias: for<'t> fn(&'t T) -> Option<&'t Alias<'a>>,
        operands: fn(&mut Self, &T),
    ) {
        self.copy();
        for field in fields {
            if let Some(alias) = inserted(alias(field)) {
                self.inserted_field(alias);
                continue;
            }
            self.copy();
            while self.code() == DECL {
                self.copy();
            }
            while !matches!(self.code(), FIELD | OPEN | CLOSE) {
                self.at += 1;
            }
            operands(self, field);
        }
        self.copy();
    }

    fn inserted_field(&mut self, alias: &Alias<'a>) {
        let (code, space) = match &alias.target {
            AliasTarget::Export { kind, .. } => (9, space_of_export(*kind)),
            AliasTarget::CoreExport { kind, .. } => (10, space_of_core_export(*kind)),
            AliasTarget::Outer { kind, .. } => (11, space_of_outer(*kind)),
        };
        let id = alias.id.expect("inserted fields have a name");
        self.out.push(Row::new(FIELD, code, 0, 0, 0, z(alias.span)));
        self.out.push(Row::new(DECL, space, 0, self.generated.name(id), 0, z(id.span())));
        self.alias(alias);
    }

    /// What an operand is now: whether it is still a name, and its number.
    fn operand(&self, index: &Index<'_>) -> (u16, u32) {
        match index {
            Index::Num(number, _) => (0, *number),
            Index::Id(id) => (1, self.generated.name(*id)),
        }
    }

    fn reference(&mut self, space: u8, index: &Index<'_>) {
        let (named, x) = self.operand(index);
        self.out.push(Row::new(REF, space, named, x, 0, z(index.span())));
    }

    fn maybe_reference(&mut self, space: u8, index: Option<&Index<'_>>) {
        if let Some(index) = index {
            self.reference(space, index);
        }
    }

    fn alias(&mut self, alias: &Alias<'_>) {
        match &alias.target {
            AliasTarget::Export { instance, name, .. } => self.export_of(10, instance, name),
            AliasTarget::CoreExport { instance, name, .. } => self.export_of(6, instance, name),
            AliasTarget::Outer { outer, index, kind } => {
                let (outer_named, x) = self.operand(outer);
                let (index_named, y) = self.operand(index);
                let e = outer_named + 2 * index_named;
                self.out.push(Row::new(OUTER, space_of_outer(*kind), e, x, y, z(index.span())));
            }
        }
    }

    fn export_of(&mut self, space: u8, instance: &Index<'_>, name: &str) {
        self.reference(space, instance);
        self.out.push(Row::new(EXPORT, 0, 0, text_number(name), 0, 0));
    }
}

fn space_of_export(kind: ComponentExportAliasKind) -> u8 {
    match kind {
        ComponentExportAliasKind::CoreModule => 7,
        ComponentExportAliasKind::Func => 8,
        ComponentExportAliasKind::Type => 9,
        ComponentExportAliasKind::Instance => 10,
        ComponentExportAliasKind::Component => 11,
        ComponentExportAliasKind::Value => 12,
    }
}

fn space_of_core_export(kind: core::ExportKind) -> u8 {
    match kind {
        core::ExportKind::Func => 0,
        core::ExportKind::Global => 1,
        core::ExportKind::Table => 2,
        core::ExportKind::Memory => 3,
        core::ExportKind::Tag => 5,
    }
}

fn space_of_outer(kind: ComponentOuterAliasKind) -> u8 {
    match kind {
        ComponentOuterAliasKind::CoreType => 4,
        ComponentOuterAliasKind::CoreModule => 7,
        ComponentOuterAliasKind::Type => 9,
        ComponentOuterAliasKind::Component => 11,
    }
}

/// The operands and the inner scope of each kind of field.
impl<'a> Writer<'a> {
    fn component_field(&mut self, field: &ComponentField<'a>) {
        match field {
            ComponentField::CoreModule(_) | ComponentField::Custom(_) | ComponentField::Producers(_) => {}
            ComponentField::CoreInstance(instance) => self.core_instance(&instance.kind),
            ComponentField::CoreType(ty) => self.core_type(&ty.def),
            ComponentField::CoreRec(group) => self.core_types(&group.types),
            ComponentField::Component(nested) => self.nested(&nested.kind),
            ComponentField::Instance(instance) => self.instance(&instance.kind),
            ComponentField::Alias(alias) => self.alias(alias),
            ComponentField::Type(ty) => self.ty(&ty.def),
            ComponentField::CanonicalFunc(func) => self.canonical_func(&func.kind),
            ComponentField::Start(start) => {
                self.reference(8, &start.func);
                start.args.iter().for_each(|arg| self.reference(12, &arg.idx));
            }
            ComponentField::Import(import) => self.signature(&import.item.kind),
            ComponentField::Export(export) => {
                export.ty.iter().for_each(|ty| self.signature(&ty.0.kind));
                self.export(&export.kind);
            }
            ComponentField::CoreFunc(_) | ComponentField::Func(_) => unreachable!("never built"),
        }
    }

    fn component_type_field(&mut self, field: &ComponentTypeDecl<'a>) {
        match field {
            ComponentTypeDecl::CoreType(ty) => self.core_type(&ty.def),
            ComponentTypeDecl::Type(ty) => self.ty(&ty.def),
            ComponentTypeDecl::Alias(alias) => self.alias(alias),
            ComponentTypeDecl::Import(import) => self.signature(&import.item.kind),
            ComponentTypeDecl::Export(export) => self.signature(&export.item.kind),
        }
    }

    fn instance_type_field(&mut self, field: &InstanceTypeDecl<'a>) {
        match field {
            InstanceTypeDecl::CoreType(ty) => self.core_type(&ty.def),
            InstanceTypeDecl::Type(ty) => self.ty(&ty.def),
            InstanceTypeDecl::Alias(alias) => self.alias(alias),
            InstanceTypeDecl::Export(export) => self.signature(&export.item.kind),
        }
    }

    fn module_type_field(&mut self, field: &ModuleTypeDecl<'a>) {
        match field {
            ModuleTypeDecl::Type(ty) => self.core_type_def(&ty.def),
            ModuleTypeDecl::Rec(group) => self.core_types(&group.types),
            ModuleTypeDecl::Alias(alias) => self.alias(alias),
            ModuleTypeDecl::Import(imports) => imports.signatures.iter().for_each(|s| self.core_signature(s)),
            ModuleTypeDecl::Export(_, signature) => self.core_signature(signature),
        }
    }

    fn core_instance(&mut self, kind: &CoreInstanceKind<'a>) {
        match kind {
            CoreInstanceKind::Instantiate { module, args } => {
                self.reference(7, &module.idx);
                for arg in args {
                    let CoreInstantiationArgKind::Instance(item) = &arg.kind else { unreachable!("never built") };
                    self.reference(6, &item.idx);
                }
            }
            CoreInstanceKind::BundleOfExports(exports) => {
                for export in exports {
                    self.reference(space_of_core_export(export.item.kind), &export.item.idx);
                }
            }
        }
    }

    fn core_type(&mut self, def: &CoreTypeDef<'a>) {
        match def {
            CoreTypeDef::Def(def) => self.core_type_def(def),
            CoreTypeDef::Module(ty) => self.scope(&ty.decls, module_type_alias, Self::module_type_field),
        }
    }

    fn core_types(&mut self, types: &[core::Type<'a>]) {
        types.iter().for_each(|ty| self.core_type_def(&ty.def));
    }

    fn core_type_def(&mut self, def: &core::TypeDef<'a>) {
        def.references.iter().for_each(|index| self.reference(4, index));
    }

    fn core_signature(&mut self, signature: &core::ItemSig<'a>) {
        match &signature.kind {
            core::ItemKind::Func(used)
            | core::ItemKind::FuncExact(used)
            | core::ItemKind::Tag(core::TagType::Exception(used)) => self.maybe_reference(4, used.index.as_ref()),
            core::ItemKind::Table(()) | core::ItemKind::Memory(()) | core::ItemKind::Global(()) => {}
        }
    }

    fn nested(&mut self, kind: &NestedComponentKind<'a>) {
        let NestedComponentKind::Inline(fields) = kind else { unreachable!("never built") };
        self.scope(fields, component_alias, Self::component_field);
    }

    fn instance(&mut self, kind: &InstanceKind<'a>) {
        match kind {
            InstanceKind::Instantiate { component, args } => {
                self.reference(11, &component.idx);
                for arg in args {
                    let InstantiationArgKind::Item(kind) = &arg.kind else { unreachable!("never built") };
                    self.export(kind);
                }
            }
            InstanceKind::BundleOfExports(exports) => exports.iter().for_each(|export| self.export(&export.kind)),
            InstanceKind::Import { .. } => unreachable!("never built"),
        }
    }

    fn export(&mut self, kind: &ComponentExportKind<'a>) {
        match kind {
            ComponentExportKind::CoreModule(item) => self.reference(7, &item.idx),
            ComponentExportKind::Func(item) => self.reference(8, &item.idx),
            ComponentExportKind::Type(item) => self.reference(9, &item.idx),
            ComponentExportKind::Instance(item) => self.reference(10, &item.idx),
            ComponentExportKind::Component(item) => self.reference(11, &item.idx),
            ComponentExportKind::Value(item) => self.reference(12, &item.idx),
        }
    }

    fn signature(&mut self, kind: &ItemSigKind<'a>) {
        match kind {
            ItemSigKind::CoreModule(CoreTypeUse::Ref(item)) => self.reference(4, &item.idx),
            ItemSigKind::Func(ComponentTypeUse::Ref(item)) => self.reference(9, &item.idx),
            ItemSigKind::Instance(ComponentTypeUse::Ref(item)) => self.reference(9, &item.idx),
            ItemSigKind::Component(ComponentTypeUse::Ref(item)) => self.reference(9, &item.idx),
            ItemSigKind::Value(ComponentValTypeUse(ty)) => self.value_type(ty),
            ItemSigKind::Type(TypeBounds::Eq(index)) => self.reference(9, index),
            ItemSigKind::Type(TypeBounds::SubResource) => {}
            _ => unreachable!("types in line are never built"),
        }
    }
}

/// Types.
impl<'a> Writer<'a> {
    fn ty(&mut self, def: &TypeDef<'a>) {
        match def {
            TypeDef::Defined(defined) => self.defined(defined),
            TypeDef::Func(func) => {
                func.params.iter().for_each(|param| self.value_type(&param.ty));
                func.result.iter().for_each(|result| self.value_type(result));
            }
            TypeDef::Component(ty) => self.scope(&ty.decls, component_type_alias, Self::component_type_field),
            TypeDef::Instance(ty) => self.scope(&ty.decls, instance_type_alias, Self::instance_type_field),
            TypeDef::Resource(resource) => {
                self.core_value_type(&resource.rep);
                self.maybe_reference(0, resource.dtor.as_ref().map(|dtor| &dtor.idx));
            }
        }
    }

    fn value_type(&mut self, ty: &ComponentValType<'a>) {
        if let ComponentValType::Ref(index) = ty {
            self.reference(9, index);
        }
    }

    fn core_value_type(&mut self, ty: &core::ValType<'a>) {
        if let core::ValType::Ref(reference) = ty {
            match &reference.heap {
                core::HeapType::Concrete(index) | core::HeapType::Exact(index) => self.reference(9, index),
                core::HeapType::Abstract { .. } => {}
            }
        }
    }

    fn defined(&mut self, defined: &ComponentDefinedType<'a>) {
        use ComponentDefinedType as Defined;
        match defined {
            Defined::Primitive(_) | Defined::Flags(_) | Defined::Enum(_) => {}
            Defined::Record(record) => record.fields.iter().for_each(|field| self.value_type(&field.ty)),
            Defined::Tuple(tuple) => tuple.fields.iter().for_each(|ty| self.value_type(ty)),
            Defined::Variant(variant) => variant.cases.iter().for_each(|case| self.case(case)),
            Defined::List(list) => self.value_type(&list.element),
            Defined::FixedLengthList(list) => self.value_type(&list.element),
            Defined::Option(option) => self.value_type(&option.element),
            Defined::Map(map) => {
                self.value_type(&map.key);
                self.value_type(&map.value);
            }
            Defined::Result(result) => {
                result.ok.iter().for_each(|ty| self.value_type(ty));
                result.err.iter().for_each(|ty| self.value_type(ty));
            }
            Defined::Own(index) | Defined::Borrow(index) => self.reference(9, index),
            Defined::Stream(stream) => stream.element.iter().for_each(|ty| self.value_type(ty)),
            Defined::Future(future) => future.element.iter().for_each(|ty| self.value_type(ty)),
        }
    }

    fn case(&mut self, case: &VariantCase<'a>) {
        let name = case.id.map_or(0, |id| text_number(id.name()));
        self.out.push(Row::new(CASE, 0, 0, name, 0, z(case.span)));
        case.ty.iter().for_each(|ty| self.value_type(ty));
    }
}
