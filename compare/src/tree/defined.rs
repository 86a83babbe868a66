//! The part of the tree that defines types: fields 12 to 16.

use super::*;

/// Whether a value type is a reference of the form.
fn is_ref(part: &ComponentValType<'_>) -> bool {
    matches!(part, ComponentValType::Ref(_))
}

impl<'a> Builder<'a> {
    pub(super) fn ty(&mut self, head: Row) -> Type<'a> {
        let id = self.decl();
        let def = match head.b {
            12 if self.here().code == CASE => TypeDef::Defined(self.variant()),
            12 => TypeDef::Defined(self.defined()),
            13 => TypeDef::Func(self.func_type()),
            14 => TypeDef::Component(ComponentType { decls: self.scope(Self::component_type_field) }),
            15 => TypeDef::Instance(InstanceType { decls: self.scope(Self::instance_type_field) }),
            _ => TypeDef::Resource(self.resource()),
        };
        Type { span: place(head), id, name: None, exports: InlineExport::default(), def }
    }

    pub(super) fn primitive(&mut self) -> ComponentValType<'a> {
        let kind = self.choice.pick(&[PrimitiveValType::Bool, PrimitiveValType::U32, PrimitiveValType::String]);
        ComponentValType::Inline(ComponentDefinedType::Primitive(kind))
    }

    /// The references that come, now and then with a primitive type between them.
    fn value_types(&mut self) -> Vec<ComponentValType<'a>> {
        let mut parts = Vec::new();
        loop {
            if self.choice.percent(15) {
                parts.push(self.primitive());
            }
            if !self.at_ref() {
                return parts;
            }
            parts.push(ComponentValType::Ref(self.index()));
        }
    }

    fn variant(&mut self) -> ComponentDefinedType<'a> {
        let mut cases = Vec::new();
        while self.here().code == CASE {
            let id = self.name(self.at);
            let span = place(self.take());
            let ty = match self.maybe_index() {
                Some(index) => Some(ComponentValType::Ref(index)),
                None => self.choice.percent(50).then(|| self.primitive()),
            };
            cases.push(VariantCase { span, id, name: "x", ty });
        }
        ComponentDefinedType::Variant(Variant { cases })
    }

    /// Any type whose references are these, in this order.
    fn defined(&mut self) -> ComponentDefinedType<'a> {
        let mut parts = self.value_types();
        match parts.len() {
            0 => self.defined_by_none(),
            1 => {
                let only = parts.pop().expect("there is one");
                self.defined_by_one(only)
            }
            2 => {
                let second = Box::new(parts.pop().expect("there are two"));
                let first = Box::new(parts.pop().expect("there is one"));
                self.defined_by_two(first, second)
            }
            _ => self.product(parts),
        }
    }

    fn product(&mut self, parts: Vec<ComponentValType<'a>>) -> ComponentDefinedType<'a> {
        if self.choice.percent(50) {
            return ComponentDefinedType::Tuple(Tuple { fields: parts });
        }
        let fields = parts.into_iter().map(|ty| RecordField { name: "x", ty }).collect();
        ComponentDefinedType::Record(Record { fields })
    }

    fn defined_by_none(&mut self) -> ComponentDefinedType<'a> {
        match self.choice.below(8) {
            0 => ComponentDefinedType::Primitive(PrimitiveValType::Char),
            1 => ComponentDefinedType::Flags(Flags { names: vec!["x"] }),
            2 => ComponentDefinedType::Enum(Enum { names: vec!["x"] }),
            3 => ComponentDefinedType::Result(ResultType { ok: None, err: None }),
            4 => ComponentDefinedType::Stream(Stream { element: None }),
            5 => ComponentDefinedType::Future(Future { element: None }),
            6 => ComponentDefinedType::Variant(Variant { cases: Vec::new() }),
            _ => self.product(Vec::new()),
        }
    }

    fn defined_by_one(&mut self, only: ComponentValType<'a>) -> ComponentDefinedType<'a> {
        if let (ComponentValType::Ref(index), true) = (&only, self.choice.percent(30)) {
            let owned = self.choice.percent(50);
            return if owned { ComponentDefinedType::Own(*index) } else { ComponentDefinedType::Borrow(*index) };
        }
        let choice = self.choice.below(8);
        if choice == 7 {
            return self.product(vec![only]);
        }
        let element = Box::new(only);
        match choice {
            0 => ComponentDefinedType::List(List { element }),
            1 => ComponentDefinedType::FixedLengthList(FixedLengthList { element, elements: 3 }),
            2 => ComponentDefinedType::Option(OptionType { element }),
            3 => ComponentDefinedType::Result(ResultType { ok: Some(element), err: None }),
            4 => ComponentDefinedType::Result(ResultType { ok: None, err: Some(element) }),
            5 => ComponentDefinedType::Stream(Stream { element: Some(element) }),
            _ => ComponentDefinedType::Future(Future { element: Some(element) }),
        }
    }

    fn defined_by_two(
        &mut self,
        first: Box<ComponentValType<'a>>,
        second: Box<ComponentValType<'a>>,
    ) -> ComponentDefinedType<'a> {
        match self.choice.below(4) {
            0 => ComponentDefinedType::Map(Map { key: first, value: second }),
            1 => ComponentDefinedType::Result(ResultType { ok: Some(first), err: Some(second) }),
            _ => self.product(vec![*first, *second]),
        }
    }

    fn func_type(&mut self) -> ComponentFunctionType<'a> {
        let mut parts = self.value_types();
        let with_result = parts.last().is_some_and(is_ref) && self.choice.percent(50);
        let result = if with_result { parts.pop() } else { None };
        let params = parts.into_iter().map(|ty| ComponentFunctionParam { name: "x", ty }).collect();
        ComponentFunctionType { async_: self.choice.percent(50), params, result }
    }

    fn resource(&mut self) -> ResourceType<'a> {
        let rep = self.value_type_of_core();
        let dtor = self.at_ref_to(0).then(|| self.core_item(kw::func));
        ResourceType { rep, dtor }
    }

    /// A heap type where a reference comes, else any type without one.
    pub(super) fn value_type_of_core(&mut self) -> core::ValType<'a> {
        let Some(index) = self.maybe_index() else {
            let heap = core::HeapType::Abstract { shared: false };
            return match self.choice.below(3) {
                0 => core::ValType::I32,
                1 => core::ValType::V128,
                _ => core::ValType::Ref(core::RefType { heap }),
            };
        };
        let exact = self.choice.percent(50);
        let heap = if exact { core::HeapType::Exact(index) } else { core::HeapType::Concrete(index) };
        core::ValType::Ref(core::RefType { heap })
    }
}
