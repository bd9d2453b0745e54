#!/usr/bin/env bash
# Times the library against the second program: compiling and feeding. No test: nothing is judged by a time.
set -euo pipefail
cd "$(dirname "$0")/.."
. tests/common/compare.sh
build_compare
if [ "$(uname -m)" != x86_64 ]; then
    echo "NOTE: both programs are for x86-64 and run under an emulator here. The times say little;"
    echo "each ratio is one of two emulated programs and may differ on a real x86-64 processor."
    echo "The C library is told not to clear memory by the instruction 'rep stosb': the emulator takes it byte by byte."
    export GLIBC_TUNABLES=glibc.cpu.x86_rep_stosb_threshold=1000000000
fi
[ $# -gt 0 ] || set -- feeds compile
for part in "$@"; do
    run_compare bench "$part"
done
