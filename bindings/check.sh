#!/usr/bin/env bash
# All checks of the bindings: the C program, then the Rust crate with its tests, doc examples and example program.
# KINYANDOMA_LIB names the folder of libkinyandoma.a; without it, it is target/staticlib of the repository.
set -euo pipefail
bindings=$(cd "$(dirname "${BASH_SOURCE[0]}")" && pwd)

echo "C:"
"$bindings/c/check.sh"

echo "Rust:"
cd "$bindings/rust"
cargo fmt --check
if cargo clippy --version > /dev/null 2>&1; then
    cargo clippy --quiet --offline --locked --all-targets -- --deny warnings
fi
cargo test --quiet --offline --locked
RUSTDOCFLAGS="--deny warnings" cargo doc --quiet --offline --locked --no-deps
cargo run --quiet --offline --locked --example create_table
