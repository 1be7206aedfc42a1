//! Names the four archives to the linker: they stand where `bindings/archive` puts them.

use std::env;
use std::path::{Path, PathBuf};
use std::process::exit;

const ARCHIVES: [&str; 4] = ["sedna_c", "parts_c", "value_c", "basex_c"];

fn main() {
    let here = PathBuf::from(env::var_os("CARGO_MANIFEST_DIR").expect("cargo sets it"));
    let folder = here.join("../../target/staticlib");
    println!("cargo:rustc-link-search=native={}", folder.display());
    let missing: Vec<_> = ARCHIVES.into_iter().filter(|name| !is_there(&folder, name)).collect();
    if !missing.is_empty() {
        explain(&folder, &missing);
        exit(1);
    }
    for name in ARCHIVES {
        println!("cargo:rustc-link-lib=static={name}");
    }
}

fn is_there(folder: &Path, name: &str) -> bool {
    let archive = folder.join(format!("lib{name}.a"));
    // One that is not there makes cargo look again at every build.
    println!("cargo:rerun-if-changed={}", archive.display());
    archive.exists()
}

fn explain(folder: &Path, missing: &[&str]) {
    eprintln!("keddorimp links the library's archives, and these are missing:");
    for name in missing {
        eprintln!("    {}/lib{name}.a", folder.display());
    }
    eprintln!("They are made in the repository's root, on a machine with the Rattle kit:");
    for name in missing {
        eprintln!("    bindings/archive {name}");
    }
}
