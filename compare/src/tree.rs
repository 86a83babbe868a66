//! Builds the crate's tree from the rows of a well-formed form. The place of a row becomes the span of its node.
//!
//! Where one row form stands for several trees (a tuple or a record, a memory option or a flag between the
//! references), `choice` picks one.

use crate::chance::Chance;
use crate::component::*;
use crate::core;
use crate::kw;
use crate::rows::{CASE, CLOSE, DECL, FIELD, OPEN, PATH, REF, Row};
use crate::token::{Id, Index, Span};

mod defined;
mod funcs;

const DIGITS: usize = 10;

/// Every name of a form as text, ten digits each, for the tree to borrow.
pub struct Texts {
    text: String,
}

impl Texts {
    pub fn of(rows: &[Row]) -> Texts {
        let mut text = String::with_capacity(2 * DIGITS * rows.len());
        for number in rows.iter().flat_map(|row| [row.x, row.y]) {
            let mut rest = number;
            let mut digits = [b'0'; DIGITS];
            for digit in digits.iter_mut().rev() {
                *digit += (rest % 10) as u8;
                rest /= 10;
            }
            text.extend(digits.map(char::from));
        }
        Texts { text }
    }

    fn x(&self, row: usize) -> &str {
        self.number(2 * row)
    }

    fn y(&self, row: usize) -> &str {
        self.number(2 * row + 1)
    }

    fn number(&self, at: usize) -> &str {
        &self.text[DIGITS * at..DIGITS * (at + 1)]
    }
}

/// The crate's tree of a well-formed form.
pub fn component<'a>(rows: &'a [Row], texts: &'a Texts, choice: u64) -> Component<'a> {
    let mut builder = Builder { rows, texts, at: 0, choice: Chance::new(choice) };
    let id = builder.name(0);
    Component {
        span: Span::from_offset(0),
        id,
        name: None,
        kind: ComponentKind::Text(builder.scope(Builder::component_field)),
    }
}

struct Builder<'a> {
    rows: &'a [Row],
    texts: &'a Texts,
    at: usize,
    choice: Chance,
}

fn place(row: Row) -> Span {
    Span::from_offset(row.z as usize)
}

fn extern_name<'a>() -> ComponentExternName<'a> {
    ComponentExternName { name: "x", implements: None, version_suffix: None, external_id: None }
}

/// The rows, one after the other.
impl<'a> Builder<'a> {
    fn here(&self) -> Row {
        self.rows[self.at]
    }

    fn take(&mut self) -> Row {
        self.at += 1;
        self.rows[self.at - 1]
    }

    fn at_ref(&self) -> bool {
        self.here().code == REF
    }

    fn at_ref_to(&self, space: u8) -> bool {
        self.at_ref() && self.here().b == space
    }

    /// The name in x of a row that may have none.
    fn name(&self, row: usize) -> Option<Id<'a>> {
        let span = place(self.rows[row]);
        (self.rows[row].x != 0).then(|| Id::new(self.texts.x(row), span))
    }

    fn decl(&mut self) -> Option<Id<'a>> {
        self.at += 1;
        self.name(self.at - 1)
    }

    fn decls(&mut self) -> Vec<Option<Id<'a>>> {
        let mut names = Vec::new();
        while self.here().code == DECL {
            names.push(self.decl());
        }
        names
    }

    /// A number, or the name with this text.
    fn operand(named: bool, number: u32, text: &'a str, span: Span) -> Index<'a> {
        if named { Index::Id(Id::new(text, span)) } else { Index::Num(number, span) }
    }

    fn index(&mut self) -> Index<'a> {
        let row = self.take();
        Self::operand(row.e == 1, row.x, self.texts.x(self.at - 1), place(row))
    }

    fn maybe_index(&mut self) -> Option<Index<'a>> {
        self.at_ref_to(9).then(|| self.index())
    }

    fn path(&mut self) -> Option<&'a str> {
        (self.here().code == PATH).then(|| {
            self.at += 1;
            self.texts.x(self.at - 1)
        })
    }

    fn item<K>(&mut self, kind: fn(Span) -> K) -> ItemRef<'a, K> {
        let kind = kind(place(self.here()));
        let idx = self.index();
        let mut export_names = Vec::new();
        while let Some(name) = self.path() {
            export_names.push(name);
        }
        ItemRef { kind, idx, export_names }
    }

    fn core_item<K>(&mut self, kind: fn(Span) -> K) -> CoreItemRef<'a, K> {
        let kind = kind(place(self.here()));
        let idx = self.index();
        let export_name = self.path();
        CoreItemRef { kind, idx, export_name }
    }

    /// The fields between OPEN and CLOSE.
    fn scope<T>(&mut self, field: fn(&mut Self, Row) -> T) -> Vec<T> {
        assert_eq!(self.take().code, OPEN);
        let mut fields = Vec::new();
        while self.here().code != CLOSE {
            let head = self.take();
            assert_eq!(head.code, FIELD);
            fields.push(field(self, head));
        }
        self.at += 1;
        fields
    }
}

/// Which node a field code stands for in each kind of scope.
impl<'a> Builder<'a> {
    fn component_field(&mut self, head: Row) -> ComponentField<'a> {
        match head.b {
            1 => ComponentField::CoreModule(self.core_module(head)),
            2 | 3 => ComponentField::CoreInstance(self.core_instance(head)),
            4 | 17 => ComponentField::CoreType(self.core_type(head)),
            5 => ComponentField::CoreRec(self.core_rec(head)),
            6 => ComponentField::Component(self.nested(head)),
            7 | 8 => ComponentField::Instance(self.instance(head)),
            9..=11 => ComponentField::Alias(self.alias(head)),
            12..=16 => ComponentField::Type(self.ty(head)),
            18 | 19 => ComponentField::CanonicalFunc(self.canonical_func(head)),
            20 => ComponentField::Start(self.start()),
            21 => ComponentField::Import(self.import(head)),
            22 => ComponentField::Export(self.export(head)),
            25 => self.custom(head),
            code => unreachable!("field {code} in a component"),
        }
    }

    fn component_type_field(&mut self, head: Row) -> ComponentTypeDecl<'a> {
        match head.b {
            4 | 17 => ComponentTypeDecl::CoreType(self.core_type(head)),
            9..=11 => ComponentTypeDecl::Alias(self.alias(head)),
            12..=16 => ComponentTypeDecl::Type(self.ty(head)),
            21 => ComponentTypeDecl::Import(self.import(head)),
            23 => ComponentTypeDecl::Export(self.export_type(head)),
            code => unreachable!("field {code} in a component type"),
        }
    }

    fn instance_type_field(&mut self, head: Row) -> InstanceTypeDecl<'a> {
        match head.b {
            4 | 17 => InstanceTypeDecl::CoreType(self.core_type(head)),
            9..=11 => InstanceTypeDecl::Alias(self.alias(head)),
            12..=16 => InstanceTypeDecl::Type(self.ty(head)),
            23 => InstanceTypeDecl::Export(self.export_type(head)),
            code => unreachable!("field {code} in an instance type"),
        }
    }

    fn module_type_field(&mut self, head: Row) -> ModuleTypeDecl<'a> {
        match head.b {
            4 => {
                let id = self.decl();
                ModuleTypeDecl::Type(self.plain_core_type(head, id, usize::MAX))
            }
            5 => ModuleTypeDecl::Rec(self.core_rec(head)),
            9..=11 => ModuleTypeDecl::Alias(self.alias(head)),
            24 => self.core_signature(),
            code => unreachable!("field {code} in a module type"),
        }
    }
}

/// Core modules, core instances and core types.
impl<'a> Builder<'a> {
    fn core_module(&mut self, head: Row) -> CoreModule<'a> {
        CoreModule {
            span: place(head),
            id: self.decl(),
            name: None,
            exports: InlineExport::default(),
            kind: CoreModuleKind::Inline { fields: Vec::new() },
        }
    }

    fn core_instance(&mut self, head: Row) -> CoreInstance<'a> {
        let id = self.decl();
        let kind = match head.b {
            2 => CoreInstanceKind::Instantiate {
                module: self.item(kw::module),
                args: self.while_at_ref(Self::core_argument),
            },
            _ => CoreInstanceKind::BundleOfExports(self.while_at_ref(Self::core_export)),
        };
        CoreInstance { span: place(head), id, name: None, kind }
    }

    fn while_at_ref<T>(&mut self, part: fn(&mut Self) -> T) -> Vec<T> {
        let mut parts = Vec::new();
        while self.at_ref() {
            parts.push(part(self));
        }
        parts
    }

    fn core_argument(&mut self) -> CoreInstantiationArg<'a> {
        let kind = CoreInstantiationArgKind::Instance(self.core_item(kw::instance));
        CoreInstantiationArg { name: "x", kind }
    }

    fn core_export(&mut self) -> CoreInstanceExport<'a> {
        let row = self.here();
        let CoreItemRef { kind: _, idx, export_name } = self.core_item(|_| ());
        let kind = core_export_kind(row.b);
        CoreInstanceExport { span: place(row), name: "x", item: CoreItemRef { kind, idx, export_name } }
    }

    fn core_type(&mut self, head: Row) -> CoreType<'a> {
        let id = self.decl();
        let def = match head.b {
            17 => CoreTypeDef::Module(ModuleType { decls: self.scope(Self::module_type_field) }),
            _ => CoreTypeDef::Def(self.core_type_def(usize::MAX)),
        };
        CoreType { span: place(head), id, name: None, def }
    }

    /// A core type that takes at most `most` of the references that come.
    fn plain_core_type(&mut self, head: Row, id: Option<Id<'a>>, most: usize) -> core::Type<'a> {
        let def = self.core_type_def(most);
        core::Type { span: place(head), id, name: None, def }
    }

    fn core_type_def(&mut self, most: usize) -> core::TypeDef<'a> {
        let mut references = Vec::new();
        while self.at_ref() && references.len() < most {
            references.push(self.index());
        }
        core::TypeDef { references }
    }

    /// The references of a group go to its types in order; the last one takes what is left.
    fn core_rec(&mut self, head: Row) -> core::Rec<'a> {
        let names = self.decls();
        let last = names.len().wrapping_sub(1);
        let mut types = Vec::new();
        for (number, id) in names.into_iter().enumerate() {
            let most = if number == last { usize::MAX } else { self.choice.below(3) };
            types.push(self.plain_core_type(head, id, most));
        }
        core::Rec { span: place(head), types }
    }

    /// An import or an export of a module type.
    fn core_signature(&mut self) -> ModuleTypeDecl<'a> {
        let mut signatures = self.while_at_ref(Self::core_item_sig);
        if self.choice.percent(30) {
            let at = self.choice.below(signatures.len() + 1);
            let kind = match self.choice.below(3) {
                0 => core::ItemKind::Table(()),
                1 => core::ItemKind::Memory(()),
                _ => core::ItemKind::Global(()),
            };
            signatures.insert(at, core::ItemSig { kind });
        }
        match signatures.len() {
            1 if self.choice.percent(50) => {
                let signature = signatures.pop().expect("there is one");
                ModuleTypeDecl::Export("x", signature)
            }
            _ => ModuleTypeDecl::Import(core::Imports { signatures }),
        }
    }

    fn core_item_sig(&mut self) -> core::ItemSig<'a> {
        let used = core::TypeUse { index: Some(self.index()) };
        let kind = match self.choice.below(3) {
            0 => core::ItemKind::Func(used),
            1 => core::ItemKind::FuncExact(used),
            _ => core::ItemKind::Tag(core::TagType::Exception(used)),
        };
        core::ItemSig { kind }
    }
}

fn core_export_kind(space: u8) -> core::ExportKind {
    match space {
        0 => core::ExportKind::Func,
        1 => core::ExportKind::Global,
        2 => core::ExportKind::Table,
        3 => core::ExportKind::Memory,
        5 => core::ExportKind::Tag,
        _ => unreachable!("space {space} is not of FIVE"),
    }
}

/// Components, instances, aliases, imports and exports.
impl<'a> Builder<'a> {
    fn nested(&mut self, head: Row) -> NestedComponent<'a> {
        NestedComponent {
            span: place(head),
            id: self.decl(),
            name: None,
            exports: InlineExport::default(),
            kind: NestedComponentKind::Inline(self.scope(Self::component_field)),
        }
    }

    fn instance(&mut self, head: Row) -> Instance<'a> {
        let id = self.decl();
        let kind = match head.b {
            7 => InstanceKind::Instantiate {
                component: self.item(kw::component),
                args: self.while_at_ref(Self::argument),
            },
            _ => InstanceKind::BundleOfExports(self.while_at_ref(Self::bundled_export)),
        };
        Instance { span: place(head), id, name: None, exports: InlineExport::default(), kind }
    }

    fn argument(&mut self) -> InstantiationArg<'a> {
        InstantiationArg { name: "x", kind: InstantiationArgKind::Item(self.export_kind()) }
    }

    fn bundled_export(&mut self) -> ComponentExport<'a> {
        let span = place(self.here());
        let kind = self.export_kind();
        ComponentExport { span, id: None, debug_name: None, name: extern_name(), kind, ty: None }
    }

    fn export_kind(&mut self) -> ComponentExportKind<'a> {
        match self.here().b {
            7 => ComponentExportKind::CoreModule(self.item(kw::module)),
            8 => ComponentExportKind::Func(self.item(kw::func)),
            9 => ComponentExportKind::Type(self.item(kw::r#type)),
            10 => ComponentExportKind::Instance(self.item(kw::instance)),
            11 => ComponentExportKind::Component(self.item(kw::component)),
            12 => ComponentExportKind::Value(self.item(kw::value)),
            space => unreachable!("space {space} is not of SIX"),
        }
    }

    fn alias(&mut self, head: Row) -> Alias<'a> {
        let space = self.here().b;
        let id = self.decl();
        let target = match head.b {
            9 => self.export_alias(space),
            10 => self.core_export_alias(space),
            _ => self.outer_alias(space),
        };
        Alias { span: place(head), id, name: None, target }
    }

    fn export_alias(&mut self, space: u8) -> AliasTarget<'a> {
        let instance = self.index();
        let name = self.export_name();
        let kind = match space {
            7 => ComponentExportAliasKind::CoreModule,
            8 => ComponentExportAliasKind::Func,
            9 => ComponentExportAliasKind::Type,
            10 => ComponentExportAliasKind::Instance,
            11 => ComponentExportAliasKind::Component,
            _ => ComponentExportAliasKind::Value,
        };
        AliasTarget::Export { instance, name, kind }
    }

    fn core_export_alias(&mut self, space: u8) -> AliasTarget<'a> {
        let instance = self.index();
        let name = self.export_name();
        AliasTarget::CoreExport { instance, name, kind: core_export_kind(space) }
    }

    fn export_name(&mut self) -> &'a str {
        self.at += 1;
        self.texts.x(self.at - 1)
    }

    fn outer_alias(&mut self, space: u8) -> AliasTarget<'a> {
        let at = self.at;
        let row = self.take();
        let kind = match space {
            4 => ComponentOuterAliasKind::CoreType,
            7 => ComponentOuterAliasKind::CoreModule,
            9 => ComponentOuterAliasKind::Type,
            _ => ComponentOuterAliasKind::Component,
        };
        AliasTarget::Outer {
            outer: Self::operand(row.e & 1 != 0, row.x, self.texts.x(at), place(row)),
            index: Self::operand(row.e & 2 != 0, row.y, self.texts.y(at), place(row)),
            kind,
        }
    }

    fn import(&mut self, head: Row) -> ComponentImport<'a> {
        ComponentImport { span: place(head), name: extern_name(), item: self.signature(head) }
    }

    fn export_type(&mut self, head: Row) -> ComponentExportType<'a> {
        ComponentExportType { span: place(head), name: extern_name(), item: self.signature(head) }
    }

    fn signature(&mut self, head: Row) -> ItemSig<'a> {
        let space = self.here().b;
        let id = self.decl();
        let kind = self.signature_kind(space);
        ItemSig { span: place(head), id, name: None, kind }
    }

    fn signature_kind(&mut self, space: u8) -> ItemSigKind<'a> {
        match space {
            7 => ItemSigKind::CoreModule(CoreTypeUse::Ref(self.core_item(kw::r#type))),
            8 => ItemSigKind::Func(ComponentTypeUse::Ref(self.item(kw::r#type))),
            9 => ItemSigKind::Type(match self.maybe_index() {
                Some(index) => TypeBounds::Eq(index),
                None => TypeBounds::SubResource,
            }),
            10 => ItemSigKind::Instance(ComponentTypeUse::Ref(self.item(kw::r#type))),
            11 => ItemSigKind::Component(ComponentTypeUse::Ref(self.item(kw::r#type))),
            _ => ItemSigKind::Value(ComponentValTypeUse(match self.maybe_index() {
                Some(index) => ComponentValType::Ref(index),
                None => self.primitive(),
            })),
        }
    }

    fn export(&mut self, head: Row) -> ComponentExport<'a> {
        let space = self.here().b;
        let id = self.decl();
        let ty = (head.e == 1).then(|| self.ascribed(head, space));
        let kind = self.export_kind();
        ComponentExport { span: place(head), id, debug_name: None, name: extern_name(), kind, ty }
    }

    /// The type ascribed to an export. Of an exported type a lone reference is the export's own.
    fn ascribed(&mut self, head: Row, space: u8) -> ItemSigNoName<'a> {
        let is_lone = self.rows[self.at + 1].code != REF;
        let kind = match space {
            9 if is_lone => ItemSigKind::Type(TypeBounds::SubResource),
            _ => self.signature_kind(space),
        };
        ItemSigNoName(ItemSig { span: place(head), id: None, name: None, kind })
    }

    fn start(&mut self) -> Start<'a> {
        let results = self.decls();
        let func = self.index();
        let args = self.while_at_ref(|builder| builder.item(kw::value));
        Start { func, args, results }
    }

    fn custom(&mut self, head: Row) -> ComponentField<'a> {
        if self.choice.percent(50) {
            ComponentField::Producers(core::Producers { fields: Vec::new() })
        } else {
            ComponentField::Custom(Custom { span: place(head), name: "x", data: Vec::new() })
        }
    }
}
