//! Links libkinyandoma.a from the folder KINYANDOMA_LIB.

use std::path::PathBuf;
use std::{env, process};

const ARCHIVE: &str = "libkinyandoma.a";

fn main() {
    println!("cargo:rerun-if-env-changed=KINYANDOMA_LIB");
    println!("cargo:rerun-if-changed=build.rs");
    if env::var_os("CARGO_FEATURE_UNLINKED").is_some() {
        return;
    }
    let folder = library_folder();
    println!("cargo:rerun-if-changed={}", folder.join(ARCHIVE).display());
    println!("cargo:rustc-link-search=native={}", folder.display());
    println!("cargo:rustc-link-lib=static=kinyandoma");
}

/// KINYANDOMA_LIB, taken from the repository's root if it is relative.
fn library_folder() -> PathBuf {
    let named = env::var("KINYANDOMA_LIB").unwrap_or_default();
    let folder = repository_root().join(&named);
    if named.is_empty() || !folder.join(ARCHIVE).is_file() {
        eprintln!("no {ARCHIVE}: set KINYANDOMA_LIB to the folder that holds it");
        process::exit(1);
    }
    folder
}

fn repository_root() -> PathBuf {
    let package = PathBuf::from(env::var("CARGO_MANIFEST_DIR").unwrap());
    package.ancestors().nth(2).unwrap().to_path_buf()
}
