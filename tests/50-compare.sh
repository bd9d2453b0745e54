#!/usr/bin/env bash
# The proved library against the second program, on fresh random input. COMPARE_SEED and COMPARE_COUNT set the seed and
# how many texts and tables; a difference is printed with the shortest input found.
set -euo pipefail
. tests/common/compare.sh
build_compare
seed=${COMPARE_SEED:-$(date +%s)000000}
count=${COMPARE_COUNT:-100000}
echo "seed $seed, count $count"
run_compare compare tables "$seed" "$count"
run_compare compare texts "$seed" "$count"
run_compare compare material
