//! Links libkinyandoma.a from the folder KINYANDOMA_LIB or, without it, from target/staticlib of the repository.

use std::path::PathBuf;
use std::{env, process};

const ARCHIVE: &str = "libkinyandoma.a";
/// Where `tools/archive` writes, from the repository's root.
const WRITTEN: &str = "target/staticlib";
/// The library's code is for this architecture.
const ARCHITECTURE: &str = "x86_64";

fn main() {
    println!("cargo:rerun-if-env-changed=KINYANDOMA_LIB");
    println!("cargo:rerun-if-changed=build.rs");
    let target = env::var("CARGO_CFG_TARGET_ARCH").unwrap_or_default();
    if target != ARCHITECTURE {
        println!(
            "cargo:warning={ARCHIVE} is {ARCHITECTURE} code: this crate builds for {target}, \
             but what calls it links and runs only as an {ARCHITECTURE} program (bindings/README.md)"
        );
        return;
    }
    let folder = library_folder();
    println!("cargo:rerun-if-changed={}", folder.join(ARCHIVE).display());
    println!("cargo:rustc-link-search=native={}", folder.display());
    println!("cargo:rustc-link-lib=static=kinyandoma");
}

/// The folder that holds the library; without one the build ends and says what to do.
fn library_folder() -> PathBuf {
    let named = env::var("KINYANDOMA_LIB").unwrap_or_else(|_| WRITTEN.to_string());
    let folder = repository_root().join(&named);
    if !folder.join(ARCHIVE).is_file() {
        eprintln!("no {ARCHIVE} in {}", folder.display());
        eprintln!("run `tools/archive` in the repository, or set KINYANDOMA_LIB to the folder that holds it");
        process::exit(1);
    }
    folder
}

/// Relative folders count from here.
fn repository_root() -> PathBuf {
    let package = PathBuf::from(env::var("CARGO_MANIFEST_DIR").expect("cargo sets it"));
    package.join("../..")
}
