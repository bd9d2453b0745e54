#!/usr/bin/env bash
# Times the reading of 16,384 bytes. Not in the gate: no test is judged by a time.
set -euo pipefail
cd "$(dirname "$0")/.."
. tests/common/x86.sh
[ -e target/staticlib/libblist.a ] || make --silent
CC86 -std=gnu11 -O2 -Iinclude tests/library/reading.c target/staticlib/libblist.a -o target/reading
RUN86 target/reading
