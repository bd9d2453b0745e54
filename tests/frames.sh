#!/usr/bin/env bash
# Prints the stack frame of each function of the library, in bytes, as its code for x86-64 has it: the return address, what is
# pushed, and what the stack pointer is lowered by. Not in the gate.
set -euo pipefail
cd "$(dirname "$0")/.."
[ -e target/staticlib/libblist.a ] || make --silent
objdump -d --no-show-raw-insn "${1:-target/staticlib/libblist.a}" | awk '
    function bytes(hex,  n, k) {
        for (k = 4; k <= length(hex); k++) n = 16 * n + index("0123456789abcdef", substr(hex, k, 1)) - 1
        return n
    }
    function told() { if (name != "") printf "%6d %s\n", frame, name }
    / <.*>:$/ { told(); name = $2; sub(/^</, "", name); sub(/>:$/, "", name); frame = 8; made = 0; paged = 0 }
    made { next }
    $2 == "call" { made = 1; next }
    $2 == "push" { frame += 8 }
    # a large frame is touched page by page on the way down, by a loop where it has many pages
    $2 == "sub" && $3 ~ /,%r11$/ { split($3, part, ","); frame += bytes(part[1]); paged = 1; next }
    $2 == "sub" && $3 ~ /,%rsp$/ { split($3, part, ","); if (paged) paged = 0; else frame += bytes(part[1]) }
    END { told() }'
