//! Copies of the crate's resolver, each with one deliberate change, for the sensitivity run.

use super::{read, write};
use std::fmt::Write as _;
use std::path::Path;

/// A change: what it is called, and texts of the crate with what stands there instead. Each text is looked for in
/// `resolve.rs` and, if it is not there, in `names.rs`.
struct Change {
    name: &'static str,
    edits: &'static [(&'static str, &'static str)],
}

const CHANGES: &[Change] = &[
    Change {
        name: "the walk starts at the outermost scope",
        edits: &[(
            "for (depth, resolver) in self.stack.iter_mut().rev().enumerate() {",
            "let last = self.stack.len() - 1;
             for (depth, resolver) in self.stack.iter_mut().enumerate().map(|(at, state)| (last - at, state)) {",
        )],
    },
    Change {
        name: "two references of one field share an alias",
        edits: &[(
            "let alias_id = gensym::generate(span);",
            "let same = |a: &&Alias<'a>| matches!(a.target, AliasTarget::Outer {
                 outer: Index::Num(d, _), index: Index::Num(n, _), .. } if d == depth && n == found);
             if let Some(id) = self.aliases_to_insert.iter().find(same).and_then(|a| a.id) {
                 *idx = Index::Id(id);
                 break;
             }
             let alias_id = gensym::generate(span);",
        )],
    },
    Change {
        name: "numbers of step A are kept",
        edits: &[
            (
                "self.phase = Phase::ExpandAliases;\n            let mut state",
                "let first;\n{ self.phase = Phase::ExpandAliases;\n            let mut state",
            ),
            ("            self.stack.pop();\n        }", "            first = self.stack.pop();\n        }"),
            (
                "self.phase = Phase::Resolve;\n            let mut state = ComponentState::new(group_id);\n\n            for field in fields.iter() {\n                register(&mut state, field)?;\n            }",
                "self.phase = Phase::Resolve;\n            let state = first.unwrap();",
            ),
            (
                "            assert_eq!(self.phase, Phase::Resolve);\n            self.stack.pop();\n        }",
                "            self.stack.pop();\n        } }",
            ),
        ],
    },
    Change {
        name: "inserted fields stand behind their field",
        edits: &[("fields.splice(i..i,", "fields.splice(i + 1..i + 1,")],
    },
    Change { name: "the operands of inserted fields are expanded again", edits: &[("i += amt + 1;", "i += 1;")] },
    Change {
        name: "the instance of a path is walked outward",
        edits: &[(
            "let names = item.export_names.len();",
            "let names = item.export_names.len();
             if names > 0 { self.resolve_ns(&mut item.idx, Ns::Instance)?; }",
        )],
    },
    Change {
        name: "the instance of a core path is walked outward",
        edits: &[(
            "let span = item.idx.span();\n                let kind",
            "self.resolve_ns(&mut item.idx, Ns::CoreInstance)?;\n let span = item.idx.span();\n                let kind",
        )],
    },
    Change {
        name: "the exports of a path are taken from the end",
        edits: &[("item.export_names.drain(..).enumerate()", "item.export_names.drain(..).rev().enumerate()")],
    },
    Change {
        name: "the first alias of a path has the space of the reference",
        edits: &[("pos == names - 1", "pos == 0")],
    },
    Change {
        name: "a name further out in another space than FOUR is passed over",
        edits: &[(
            "if depth == 0 {\n",
            "if depth == 0 || !matches!(ns, Ns::CoreModule | Ns::CoreType | Ns::Type | Ns::Component) {\n",
        )],
    },
    Change {
        name: "an inserted outer count is one too small",
        edits: &[("outer: Index::Num(depth, span)", "outer: Index::Num(depth - 1, span)")],
    },
    Change {
        name: "a named outer is the outermost scope of that name",
        edits: &[(
            "for resolver in self.stack.iter().rev() {\n                    if resolver.id == Some(*id) {",
            "let found = self.stack.iter().position(|state| state.id == Some(*id));
             let meant = found.map_or(self.stack.len(), |at| self.stack.len() - 1 - at);
             for _ in self.stack.iter().rev() {\n                    if depth as usize == meant {",
        )],
    },
    Change {
        name: "a named outer leaves this scope out",
        edits: &[("if resolver.id == Some(*id) {", "if resolver.id == Some(*id) && depth > 0 {")],
    },
    Change {
        name: "the place of an outer count that is too large is the operand's",
        edits: &[(
            "span,\n                format!(\"outer count",
            "index.span(),\n                format!(\"outer count",
        )],
    },
    Change {
        name: "two numbers of an outer are checked",
        edits: &[(
            "if let Index::Num(..) = index {\n                return Ok(());",
            "if let Index::Num(..) = index {",
        )],
    },
    Change {
        name: "heap types are looked up among core types",
        edits: &[("self.resolve_ns(id, Ns::Type)?;", "self.resolve_ns(id, Ns::CoreType)?;")],
    },
    Change {
        name: "cases are tested in step B",
        edits: &[(
            "if self.phase == Phase::Resolve {\n                        ns.register",
            "if true {\n                        ns.register",
        )],
    },
    Change {
        name: "cases are not tested",
        edits: &[(
            "if self.phase == Phase::Resolve {\n                        ns.register",
            "if false {\n                        ns.register",
        )],
    },
    Change {
        name: "the export's own reference comes before its ascribed type",
        edits: &[(
            "if let Some(ty) = &mut e.ty {
                    self.item_sig(&mut ty.0)?;
                }
                self.export(&mut e.kind)",
            "self.export(&mut e.kind)?;
                if let Some(ty) = &mut e.ty {
                    self.item_sig(&mut ty.0)?;
                }
                Ok(())",
        )],
    },
    Change {
        name: "the ascribed type of an export is passed over",
        edits: &[(
            "if let Some(ty) = &mut e.ty {
                    self.item_sig(&mut ty.0)?;
                }
                self.export(&mut e.kind)",
            "self.export(&mut e.kind)",
        )],
    },
    Change { name: "options of a lift are passed over", edits: &[("self.canon_opts(&mut info.opts)?;", "")] },
    Change {
        name: "tables are looked up among memories",
        edits: &[("core_item!(kw::table, CoreTable);", "core_item!(kw::table, CoreMemory);")],
    },
    Change {
        name: "an exported type has no name",
        edits: &[("self.types.register(e.id, \"type\")?", "self.types.register(None, \"type\")?")],
    },
    Change {
        name: "a name may be declared twice",
        edits: &[(
            "if let Some(_prev) = self.names.insert(name, index) {",
            "self.names.insert(name, index); if false {",
        )],
    },
    Change {
        name: "unnamed declarations get no number",
        edits: &[("let index = self.alloc();", "let index = if name.is_some() { self.alloc() } else { 0 };")],
    },
    Change {
        name: "declarations are numbered from 1",
        edits: &[(
            "let index = self.count;\n        self.count += 1;",
            "self.count += 1;\n        let index = self.count;",
        )],
    },
];

/// Writes a module for each change, and the list of them.
pub fn write_copies(source: &Path, out: &Path) {
    let resolve = without_shared_impls(&read(&source.join("component/resolve.rs")));
    let names = read(&source.join("names.rs"));
    let mut list = String::from("pub const COPIES: &[(&str, Resolve)] = &[\n");
    let mut modules = String::new();
    for (number, change) in CHANGES.iter().enumerate() {
        let (mut resolve, mut names) = (resolve.clone(), names.clone());
        for (old, new) in change.edits {
            let target = if resolve.contains(old) { &mut resolve } else { &mut names };
            assert!(target.contains(old), "{}: the crate has no text {old:?}", change.name);
            *target = target.replacen(old, new, 1);
        }
        resolve = resolve.replace("use crate::names::Namespace;", "use super::names::Namespace;");
        let file = |kind: &str| out.join(format!("planted_{number}_{kind}.rs"));
        write(&file("resolve"), &resolve);
        write(&file("names"), &names);
        writeln!(modules, "#[allow(warnings)]\nmod copy_{number} {{").unwrap();
        for kind in ["resolve", "names"] {
            writeln!(modules, "#[path = {:?}]\npub mod {kind};", file(kind)).unwrap();
        }
        modules.push_str("}\n");
        writeln!(list, "({:?}, copy_{number}::resolve::resolve),", change.name).unwrap();
    }
    list.push_str("];\n");
    write(&out.join("planted.rs"), &(modules + &list));
}

/// The resolver without the conversions of an alias into a field, which the original states already.
fn without_shared_impls(text: &str) -> String {
    let start = text.find("impl<'a> From<Alias<'a>> for ComponentField<'a>").expect("the conversions");
    let end = text.find("#[derive(Default)]\nstruct Resolver").expect("the resolver");
    [&text[..start], &text[end..]].concat()
}
