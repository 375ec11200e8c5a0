#!/usr/bin/env bash
# Runs libFuzzer on the calls for so many seconds (300), beginning with the trees of the gate. It needs clang with its
# runtime, and python3. An input that fails stays in oracle/target/made.
set -euo pipefail
seconds=${1:-300}
cd "$(dirname "${BASH_SOURCE[0]}")/../.."
library=${KINYANDOMA_LIB:-target/staticlib}/libkinyandoma.a
made=$(mktemp -d)
trap 'rm -r "$made"' EXIT
mkdir -p "$made/corpus" oracle/target/made

# Each stored tree of up to 2,000 bytes, as the input that lends it with the switch on, in its edition; and appends of an ID to a fresh
# record and to one that has written two lines.
python3 - crates/replay_text/stdin "$made/corpus" << 'EOF'
import struct, sys
data, at, name = open(sys.argv[1], "rb").read(), 0, 0
while at < len(data):
    options, tree, text = struct.unpack_from("<III", data, at)
    lent = data[at + 12:at + 12 + tree + text]
    at += 12 + tree + text
    name += 1
    if len(lent) <= 2000:
        head = struct.pack("<BHBBB", 0, tree, 40, 0, 1 | options & 2)
        open(f"{sys.argv[2]}/{name}", "wb").write(head + lent)
for numbers in [(1, 0, 0, 0), (0, 9, 1, 3)]:
    for value in [b"a\nbc", b"x" * 40]:
        head = struct.pack("<BHBBB", 1, 60 | 0x8000, 80, 0, 0)
        name += 1
        open(f"{sys.argv[2]}/{name}", "wb").write(head + struct.pack("<BQQQ", *numbers) + value)
EOF
echo "inputs to begin with: $(ls "$made/corpus" | wc -l)"

"${CLANG:-clang}" -std=c11 -Wall -Wextra -Werror -O1 -g -fsanitize=fuzzer,address -Iinclude \
    oracle/libfuzzer/calls.c "$library" -o "$made/calls"
"$made/calls" -max_total_time="$seconds" -max_len=4096 -timeout=5 -print_final_stats=1 \
    -artifact_prefix=oracle/target/made/ "$made/corpus" 2>&1 | grep -E "ERROR|Test unit|stat::|DONE|SUMMARY"
