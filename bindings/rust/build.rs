//! Finds the proved static library, whose name is `links` in Cargo.toml, and links it in.

use std::env;
use std::path::PathBuf;

/// Where `tools/staticlib` writes the library, from this package's folder.
const USUAL: &str = "../../target/staticlib";

fn main() {
    println!("cargo::rerun-if-changed=build.rs");
    println!("cargo::rerun-if-env-changed=WNT_LIB_DIR");
    let name = env::var("CARGO_MANIFEST_LINKS").expect("cargo sets CARGO_MANIFEST_LINKS");
    let folder = folder();
    let library = folder.join(format!("lib{name}.a"));
    println!("cargo::rerun-if-changed={}", library.display());
    if library.is_file() {
        println!("cargo::rustc-link-search=native={}", folder.display());
        println!("cargo::rustc-link-lib=static={name}");
    } else {
        println!(
            "cargo::error=there is no library {}; `tools/staticlib {name}` writes it, and WNT_LIB_DIR may name its folder",
            library.display()
        );
    }
}

/// The folder that WNT_LIB_DIR names, or the usual one; a relative one is taken from this package's folder.
fn folder() -> PathBuf {
    let here = PathBuf::from(env::var_os("CARGO_MANIFEST_DIR").expect("cargo sets CARGO_MANIFEST_DIR"));
    here.join(env::var_os("WNT_LIB_DIR").unwrap_or_else(|| USUAL.into()))
}
