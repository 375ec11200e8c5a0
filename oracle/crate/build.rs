//! Copies the four sources into OUT_DIR and lists the variants of the token type.

use std::path::{Path, PathBuf};
use std::{env, fs, process};

const SOURCES: [&str; 4] = ["token.rs", "ast.rs", "ast/fmt.rs", "lexer.rs"];
const DEFAULT_FOLDER: &str = "../shared/docs/src";
const MODULES: &str = "pub mod ast;\npub mod lexer;\npub mod token;\n";

fn main() {
    println!("cargo:rerun-if-env-changed=TURSO_SRC");
    println!("cargo:rerun-if-changed=build.rs");
    let out = PathBuf::from(env::var("OUT_DIR").unwrap());
    let sources = source_folder().join("src");
    fs::create_dir_all(out.join("ast")).unwrap();
    for name in SOURCES {
        copy(&sources.join(name), &out.join(name));
    }
    fs::write(out.join("ast/check.rs"), "").unwrap();
    fs::write(out.join("modules.rs"), MODULES).unwrap();
    let tokens = fs::read_to_string(out.join("token.rs")).unwrap();
    fs::write(out.join("variants.rs"), variants(&tokens)).unwrap();
}

/// TURSO_SRC, taken from the repository's root if it is relative.
fn source_folder() -> PathBuf {
    let named = env::var("TURSO_SRC").unwrap_or_default();
    let folder = if named.is_empty() {
        DEFAULT_FOLDER
    } else {
        &named
    };
    repository_root().join(folder)
}

fn repository_root() -> PathBuf {
    let package = PathBuf::from(env::var("CARGO_MANIFEST_DIR").unwrap());
    package.ancestors().nth(2).unwrap().to_path_buf()
}

fn copy(from: &Path, to: &Path) {
    println!("cargo:rerun-if-changed={}", from.display());
    let Ok(bytes) = fs::read(from) else {
        let path = from.display();
        eprintln!(
            "no file {path}: set TURSO_SRC to the folder of turso_parser 0.8.3 that holds src/"
        );
        process::exit(1);
    };
    fs::write(to, bytes).unwrap();
}

/// One entry for each line `NAME = NUMBER,` of the source.
fn variants(source: &str) -> String {
    let entries: String = source.lines().filter_map(variant).collect();
    format!("pub const VARIANTS: &[(u16, crate::token::TokenType)] = &[\n{entries}];\n")
}

fn variant(line: &str) -> Option<String> {
    let (name, rest) = line.trim().split_once(" = ")?;
    let (number, _) = rest.split_once(',')?;
    let number: u16 = number.parse().ok()?;
    name.starts_with("TK_")
        .then(|| format!("    ({number}, crate::token::TokenType::{name}),\n"))
}
