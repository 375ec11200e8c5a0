#!/usr/bin/env bash
# Fails where a library of x86-64 code divides: by an instruction, by a routine that it would have to be linked with, or by
# the multiplication to twice the width that a compiler makes of a division by a constant.
#     no_division.sh [ARCHIVE]     without a name, of target/staticlib/libkinyandoma.a
#     no_division.sh --planted     sees that each of the three is found in a small library that has it, and none in one without
# OBJDUMP, NM and AR name other tools, CC a compiler for x86-64, where the machine's own are for another processor.
set -euo pipefail
cd "$(dirname "${BASH_SOURCE[0]}")/.."

# Instructions, as objdump names them.
DIVIDES='i?div[bwlq]?'
# To twice the width: one operand, or mulx.
WIDENS='i?mul[bwlq]? +[^, ]+(\([^)]*\))?$|mulx[lq]? .*'
# Routines of libgcc and compiler-rt.
ROUTINES='__u?(div|mod|divmod)[sdtx][fi][34]|__aeabi_u?l?[di]+v(mod)?'

# What is found in an archive, in one line; nothing, where it does not divide.
found_in() {
    local code outside
    code=$("${OBJDUMP:-objdump}" -d --no-show-raw-insn "$1" | sed -nE 's/^ *[0-9a-f]+:\t//p' | sed -E 's/ *[#<].*$//; s/ +$//')
    outside=$("${NM:-nm}" -u "$1" | awk '$1 == "U" { print $2 }')
    [ -n "$code" ] || { echo "no code that can be read"; return; }
    grep -m1 -xE "($DIVIDES)( .*)?" <<< "$code" && return
    grep -m1 -xE "$WIDENS" <<< "$code" && return
    grep -m1 -xE "$ROUTINES" <<< "$outside" || true
}

# A library of one function with this body.
made_of() {
    printf 'typedef unsigned long long u64;\nu64 f(u64 a, u64 b) { return %s; }\n' "$2" > "$made/$1.c"
    ${CC:-cc} -O2 -c "$made/$1.c" -o "$made/$1.o"
    "${AR:-ar}" rcs "$made/$1.a" "$made/$1.o"
    found_in "$made/$1.a"
}

try_planted() {
    local missed=0 name body found
    while read -r name body; do
        found=$(made_of "$name" "$body")
        echo "$name: ${found:-NOT FOUND}"
        [ -n "$found" ] || missed=1
    done << 'EOF'
instruction a / b
constant a / 10
routine (u64)(((unsigned __int128)a << 64 | b) / (b | 1))
EOF
    found=$(made_of none 'a / 16 + b % 256 + a * 10 + a * b')
    echo "no division: ${found:-nothing found}"
    [ -z "$found" ] && [ "$missed" = 0 ]
}

if [ "${1:-}" = --planted ]; then
    made=$(mktemp -d)
    trap 'rm -r "$made"' EXIT
    try_planted
    exit
fi
archive=${1:-target/staticlib/libkinyandoma.a}
[ -f "$archive" ] || { echo "no $archive" >&2; exit 1; }
found=$(found_in "$archive")
if [ -n "$found" ]; then
    echo "$archive: found $found" >&2
    exit 1
fi
echo "$archive does not divide: no instruction, no multiplication in place of one, no routine"
