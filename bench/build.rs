//! Names the archives to the linker, for the program alone: `SEDNA_C`, `PARTS_C`, `VALUE_C` and
//! `BASEX_C`, or where `bindings/archive` puts them.

use std::env;
use std::path::PathBuf;

fn main() {
    let here = PathBuf::from(env::var_os("CARGO_MANIFEST_DIR").expect("cargo sets it"));
    let archives = [
        ("SEDNA_C", "libsedna_c.a"),
        ("PARTS_C", "libparts_c.a"),
        ("VALUE_C", "libvalue_c.a"),
        ("BASEX_C", "libbasex_c.a"),
    ];
    for (variable, file) in archives {
        let named = env::var_os(variable).map(PathBuf::from);
        let archive = named.unwrap_or_else(|| here.join("../target/staticlib").join(file));
        println!("cargo:rerun-if-env-changed={variable}");
        println!("cargo:rerun-if-changed={}", archive.display());
        println!("cargo:rustc-link-arg-bins={}", archive.display());
    }
}
