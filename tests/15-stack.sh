#!/usr/bin/env bash
# The worst texts on the stack that is promised: compile in a program that holds one text and one table, and the listing program.
# Both with no environment but the path, since the stack holds that too, and always at the same address where the system can
# do that.
set -euo pipefail
still=()
if setarch "$(uname -m)" -R true 2> /dev/null; then still=(setarch "$(uname -m)" -R); fi
on() { env -i PATH="$PATH" STACK="$1" "${still[@]}" bash tests/run-x86.sh "$2"; }
many() { for ((i = 0; i < $2; i++)); do printf '%s' "$1"; done; }

on 143360 target/bin/examples | cmp - crates/examples/stdout

# The table of the text on standard input has so many gates and labels.
lists() {
    local lines
    lines=$(on 176128 target/bin/list)
    if [ "${lines%%$'\n'*}" != "gates $1 labels $2" ]; then
        echo "15-stack: gates $1 labels $2 expected, not ${lines%%$'\n'*}"
        exit 1
    fi
}
{ many '1+' 1023; printf 1; } | lists 1024 2
{ many '1-' 1023; printf 1; } | lists 1024 2
{ printf '(1+2)'; many '*(3+4)*5' 340; printf '*(3+4)'; } | lists 1024 3
{ many '1*(' 63; printf '(1+2)'; many '*(3+4)*5' 319; printf '*(3+4)'; many ')' 63; } | lists 1024 3
{ many '1+1*(' 64; many '1+' 895; printf 1; many ')' 64; } | lists 1024 2
{ many '(' 63; printf 1; many '*1*1*1*1*1*1*1*1+1+1+1+1+1+1+1+1)' 63; many '*1' 15; } | lists 1024 2
{ many '1+1*(' 64; printf '1+1*1'; many ')' 64; } | lists 131 2
{ many '(' 64; printf 1; many ')' 64; } | lists 1 2
{ many '!' 16383; printf 1; } | lists 1 2
