#!/usr/bin/env bash
# Fails where a name in docs/CLAIMS.md or a function in docs/EXCEPTIONS.md is not in the tree, or a must-fail edit or a promise is not
# named in docs/CLAIMS.md.
set -euo pipefail
cd "$(dirname "$0")/.."
python3 -B tests/documents/claims.py
