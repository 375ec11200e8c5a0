#!/usr/bin/env bash
# Builds the oracle, holds the stored files to it, and compares the library and the grammar's entries with the crate,
# the check with the model, what it says of CHECK sources and of without-rowid texts with two readings of each, what the
# SQLite edition writes with SQLite itself where `sqlite3` is on PATH, and what append writes with the reading rule.
# It sees that bytes of a text that no record names change nothing, that many trees at once are the single calls, that
# the field profile is the model's, and that the reader cuts texts by the reading rule.
# `run.sh --store` writes the stored files instead, and ends.
# `run.sh --bench` tells the speed, the stack and the size of the library beside the crate's instead, and ends.
set -euo pipefail

# Stored files, from the repository's root.
SPELLINGS=crates/spellings/stdout
CASES=crates/replay/stdin
EXPECTED=crates/replay/stdout
TREES=crates/replay_trees/stdin
ANSWERS=crates/replay_trees/stdout
TEXTS=crates/replay_text/stdin
WRITTEN=crates/replay_text/stdout
LISTS=crates/replay_jobs/stdin
SAID=crates/replay_jobs/stdout
PROFILED=crates/replay_profile/stdin
BROKEN=crates/replay_profile/stdout
TO_CUT=crates/replay_cut/stdin
PRINTED=crates/replay_cut/stdout

# Folders of the definitions that the entries are read from.
GRAMMAR=crates/grammar/specs
SPELLING=crates/spelling/specs

# Extent of the comparison.
TOKENS=${TOKENS:-2000000}
REFUSED=${REFUSED:-2000000}
SEED=${SEED:-1}
TREE_CASES=${TREE_CASES:-1000000}
TREES_RENDERED=${TREES_RENDERED:-1000000}
NUMBERS=${NUMBERS:-10000000}
ENCODED=${ENCODED:-5000000}
SOURCES=${SOURCES:-2000000}
EDITIONS=${EDITIONS:-1000000}
NAMED=${NAMED:-1000000}
JOBS=${JOBS:-1000000}
PROFILES=${PROFILES:-1000000}
LEXEMES=${LEXEMES:-10000000}
CUTS=${CUTS:-5000}
TABLES=${TABLES:-10000}
ENTRIES=${ENTRIES:-1000000}
STREAMS=${STREAMS:-1000000}
FUZZED=${FUZZED:-10000000}
ENTRY_FAULTS=20000
LISTED=1293
LISTED_SEED=1

oracle=$(cd "$(dirname "${BASH_SOURCE[0]}")" && pwd)
cd "$oracle/.."
export TURSO_SRC=${TURSO_SRC:-../shared/docs/src}
programs=$oracle/target/release
made=$oracle/target/made
library=target/staticlib

# What the library may call: no allocator is among them.
CALLED='memcpy|memmove|memset|memcmp|bcmp'

build_as() {
    local profile=$1
    shift
    cargo build --quiet --offline --locked --profile "$profile" \
        --manifest-path "$oracle/Cargo.toml" --target-dir "$oracle/target" "$@"
}

build() {
    build_as release "$@"
}

check_sources() {
    if [ ! -f "$TURSO_SRC/src/token.rs" ]; then
        echo "no sources in $TURSO_SRC: set TURSO_SRC to the folder of turso_parser 0.8.3 that holds src/" >&2
        exit 1
    fi
    (cd "$TURSO_SRC" && sha256sum --check --quiet "$oracle/sources.sha256")
}

make_files() {
    mkdir -p "$made"
    "$programs/tokens" spellings --bare > "$made/spellings"
    "$programs/tokens" cases "$made/cases" "$made/expected"
    "$programs/model" cases "$LISTED" "$LISTED_SEED" "$made/trees" "$made/answers"
    "$programs/model" texts "$made/texts" "$made/written"
    "$programs/model" jobs "$made/lists" "$made/said"
    "$programs/model" profile "$made/profiled" "$made/broken"
    "$programs/reading" cases "$made/to_cut" "$made/printed"
}

store() {
    mkdir -p "$(dirname "$2")"
    cp "$made/$1" "$2"
    echo "stored: $2"
}

hold() {
    if ! cmp "$made/$1" "$2"; then
        echo "$2 is not what the oracle writes now (oracle/run.sh --store writes it anew)" >&2
        exit 1
    fi
    echo "as stored: $2"
}

# Bytes of the library's sections whose names begin so.
bytes_of() {
    size -A "$library/libkinyandoma.a" | awk -v name="$1" 'index($1, name) == 1 { sum += $2 } END { print sum + 0 }'
}

tell_size() {
    echo "code: $(bytes_of .text) bytes, tables: $(bytes_of .rodata) bytes, data that changes: $(bytes_of .data) bytes"
    local called
    called=$(nm -u "$library/libkinyandoma.a" | awk '$1 == "U" { print $2 }' | sort -u)
    echo "called from outside:" $called
    if [ -n "$called" ] && grep -qvxE "$CALLED" <<< "$called"; then
        echo "the library calls what it must not" >&2
        exit 1
    fi
}

bench() {
    tools/archive
    KINYANDOMA_LIB=$library build_as timed --package bench
    tell_size
    "$oracle/target/timed/bench"
}

for_each_file() {
    "$1" spellings "$SPELLINGS"
    "$1" cases "$CASES"
    "$1" expected "$EXPECTED"
    "$1" trees "$TREES"
    "$1" answers "$ANSWERS"
    "$1" texts "$TEXTS"
    "$1" written "$WRITTEN"
    "$1" lists "$LISTS"
    "$1" said "$SAID"
    "$1" profiled "$PROFILED"
    "$1" broken "$BROKEN"
    "$1" to_cut "$TO_CUT"
    "$1" printed "$PRINTED"
}

check_sources
if [ "${1:-}" = --bench ]; then
    bench
    exit
fi
build
make_files
if [ "${1:-}" = --store ]; then
    for_each_file store
    exit
fi
for_each_file hold

echo "the reading rule against planted faults, and streams that break one of its rules:"
"$programs/reading" faults
"$programs/reading" broken | tail -1

echo "every short readable stream cut back by the reading rule, and by the crate's lexer:"
"$programs/reading" short

echo "the comparer against planted faults:"
build --package compare --features compare/selftest
"$programs/compare" faults

echo "the library against the crate:"
tools/archive
"$oracle/no_division.sh" --planted
"$oracle/no_division.sh" "$library/libkinyandoma.a"
KINYANDOMA_LIB=$library build --package compare
"$programs/compare" "$TOKENS" "$REFUSED" "$SEED"
"$programs/compare" trees "$TREES_RENDERED" "$SEED"

echo "numbers of every length and both signs, against Rust's own decimal text and the crate's:"
"$programs/compare" numbers "$NUMBERS" "$SEED"

echo "texts that are whole, cut off or never UTF-8, against Rust's own check:"
"$programs/compare" encoding "$ENCODED" "$SEED"

echo "CHECK sources that are left open, every short one and random ones, against two readings:"
"$programs/compare" sources "$SOURCES" "$SEED"

echo "the two editions, every spelling of what they differ in and random trees, against two readings:"
"$programs/compare" editions "$EDITIONS" "$SEED"

echo "bytes that no record names, changed: the same answers and outputs:"
"$programs/compare" named "$NAMED" "$SEED"

echo "many trees at once, against the model of a list of jobs and against single calls:"
"$programs/compare" jobs "$JOBS" "$SEED"

echo "the field profile, against the model, and against measure and render:"
"$programs/compare" profile "$PROFILES" "$SEED"

echo "every short text and random ones, cut lexeme by lexeme, against the reading rule:"
"$programs/compare" lexemes "$LEXEMES" "$SEED"

echo "what the program cut prints, against the reading rule:"
tools/program cut
"$programs/compare" cut "$CUTS" "$SEED" target/bin/cut

if command -v sqlite3 > /dev/null; then
    echo "what the SQLite edition writes, handed to SQLite itself:"
    "$programs/compare" sqlite "$TABLES" "$SEED"
else
    echo "no sqlite3 on PATH: the SQLite edition was not handed to SQLite"
fi

echo "the library's calls on whatever comes, between known bytes and beside closed pages:"
"$programs/compare" fuzz "$FUZZED" "$SEED"

echo "the library's texts cut back by the reading rule, and by the crate's lexer:"
"$programs/compare" reading "$STREAMS" "$SEED"

echo "the check of trees against the model:"
tools/program replay_trees
"$programs/model" stream "$TREE_CASES" "$SEED" | target/bin/replay_trees | "$programs/model" judge "$TREE_CASES" "$SEED"

echo "the entries of the grammar against the crate:"
"$programs/entries" faults "$ENTRY_FAULTS" "$SEED" "$GRAMMAR" "$SPELLING"
"$programs/entries" "$ENTRIES" "$SEED" "$GRAMMAR" "$SPELLING" | tail -3
