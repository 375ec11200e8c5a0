#!/usr/bin/env bash
# Builds check.c with include/kinyandoma.h and libkinyandoma.a and runs it; the header must stand alone, as C and as C++.
# KINYANDOMA_LIB names the library's folder; without it, it is target/staticlib.
# CC and CXX name the compilers, RUNNER what runs an x86-64 program where the machine does not.
set -euo pipefail
cd "$(dirname "${BASH_SOURCE[0]}")/../.."
library=${KINYANDOMA_LIB:-target/staticlib}/libkinyandoma.a
strict=(-Wall -Wextra -Werror -pedantic)

if [ ! -f "$library" ]; then
    echo "no $library: run \`tools/archive\`, or set KINYANDOMA_LIB to the folder that holds it" >&2
    exit 1
fi
made=$(mktemp -d)
trap 'rm -r "$made"' EXIT

"${CC:-cc}" -std=c11 "${strict[@]}" -fsyntax-only -x c include/kinyandoma.h
"${CXX:-c++}" -std=c++11 "${strict[@]}" -fsyntax-only -x c++ include/kinyandoma.h
echo "the header stands alone, as C11 and as C++11"
"${CC:-cc}" -std=c11 "${strict[@]}" ${CFLAGS:-} -O1 -Iinclude bindings/c/check.c "$library" -o "$made/check"
${RUNNER:-} "$made/check"
