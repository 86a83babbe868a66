//! Finds the crate's source and our library, whose name is `links` in Cargo.toml, and writes the small files that tie them in.

use std::collections::BTreeSet;
use std::env;
use std::fmt::Write as _;
use std::fs;
use std::path::{Path, PathBuf};

mod planted;

/// The crate's files that define a component's tree, in the order of its `component.rs`.
const TREE: [&str; 10] =
    ["alias", "component", "custom", "export", "func", "import", "instance", "item_ref", "module", "types"];

/// The crate's other files that are compiled.
const OTHERS: [&str; 5] = ["component/resolve.rs", "core/export.rs", "gensym.rs", "names.rs", "token.rs"];

fn main() {
    println!("cargo::rerun-if-changed=build.rs");
    println!("cargo::rerun-if-changed=planted.rs");
    let source = folder("WAST_SRC", "../../shared/docs/src").join("src");
    let library = folder("WNT_LIB_DIR", "../target/staticlib");
    match missing(&source, &library) {
        Some(what) => println!("cargo::error={what}"),
        None => build(&source, &library),
    }
}

/// The folder that a variable names, or the usual one, from this package's folder.
fn folder(variable: &str, usual: &str) -> PathBuf {
    println!("cargo::rerun-if-env-changed={variable}");
    let here = PathBuf::from(env::var("CARGO_MANIFEST_DIR").expect("cargo sets CARGO_MANIFEST_DIR"));
    let path = here.join(env::var(variable).unwrap_or_else(|_| usual.to_string()));
    path.canonicalize().unwrap_or(path)
}

/// The library's name.
fn name() -> String {
    env::var("CARGO_MANIFEST_LINKS").expect("cargo sets CARGO_MANIFEST_LINKS")
}

/// What of the crate's source or of our library is not there, and how to get it.
fn missing(source: &Path, library: &Path) -> Option<String> {
    let name = name();
    let archive = library.join(format!("lib{name}.a"));
    let says =
        |what: &str, file: &Path, how: &str| format!("this needs {what}, and there is no {}; {how}", file.display());
    if let Some(file) = compiled_files().map(|file| source.join(file)).find(|file| is_missing(file)) {
        let how = "WAST_SRC may name the folder around its src";
        return Some(says("the source of the crate wast 262.0.0", &file, how));
    }
    let how = format!("`tools/staticlib {name}` writes it, and WNT_LIB_DIR may name its folder");
    is_missing(&archive).then(|| says("the library", &archive, &how))
}

/// Cargo builds again when that changes.
fn is_missing(file: &Path) -> bool {
    println!("cargo::rerun-if-changed={}", file.display());
    !file.is_file()
}

/// The crate's files that are compiled, below its `src`.
fn compiled_files() -> impl Iterator<Item = String> {
    TREE.map(|name| format!("component/{name}.rs")).into_iter().chain(OTHERS.map(str::to_string))
}

fn build(source: &Path, library: &Path) {
    let out = PathBuf::from(env::var("OUT_DIR").expect("cargo sets OUT_DIR"));
    println!("cargo::rustc-link-search=native={}", library.display());
    println!("cargo::rustc-link-lib=static={}", name());
    write(&out.join("crate_files.rs"), &crate_files(source));
    write(&out.join("keywords.rs"), &names_after(source, "kw::"));
    write(&out.join("annotations.rs"), &names_after(source, "annotation::"));
    if env::var("CARGO_FEATURE_PLANTED").is_ok() {
        planted::write_copies(source, &out);
    }
}

/// Modules whose text is the crate's own files, where they stand.
fn crate_files(source: &Path) -> String {
    let mut text = String::new();
    for name in ["token", "names", "gensym"] {
        module(&mut text, "pub", name, &source.join(format!("{name}.rs")));
    }
    module(&mut text, "pub", "core_export", &source.join("core/export.rs"));
    text.push_str("pub mod component {\n");
    for name in TREE {
        module(&mut text, "", name, &source.join(format!("component/{name}.rs")));
        writeln!(text, "pub use self::{name}::*;").unwrap();
    }
    module(&mut text, "pub", "resolve", &source.join("component/resolve.rs"));
    text.push_str("use crate::standins::expand;\n}\n");
    text
}

fn module(text: &mut String, visible: &str, name: &str, file: &Path) {
    writeln!(text, "#[allow(warnings)]\n#[path = {file:?}]\n{visible} mod {name};").unwrap();
}

/// A `keywords!` list of every name that follows `prefix` in the crate's files that are compiled.
fn names_after(source: &Path, prefix: &str) -> String {
    let mut names = BTreeSet::new();
    for file in compiled_files() {
        let text = read(&source.join(file));
        names.extend(text.split(prefix).skip(1).map(identifier).filter(|name| !name.is_empty()));
    }
    let list: Vec<String> = names.into_iter().collect();
    format!("keywords! {{ {} }}\n", list.join(" "))
}

fn identifier(text: &str) -> String {
    let raw = text.strip_prefix("r#").unwrap_or(text);
    let end = raw.find(|c: char| !c.is_ascii_alphanumeric() && c != '_');
    let name = &raw[..end.unwrap_or(raw.len())];
    if name.is_empty() { String::new() } else { format!("r#{name}") }
}

fn read(file: &Path) -> String {
    fs::read_to_string(file).unwrap_or_else(|problem| panic!("{}: {problem}", file.display()))
}

fn write(file: &Path, text: &str) {
    fs::write(file, text).unwrap_or_else(|problem| panic!("{}: {problem}", file.display()));
}
