#!/usr/bin/env bash
# Counts the lines of definitions that the demands and all promises rest on, and fails when there are more than crates/promises says
# in its head, or when a promise rests on a definition that is there for the code's contracts alone. --names lists them.
set -euo pipefail
cd "$(dirname "$0")/.."
python3 -B tests/documents/belief.py "$@"
