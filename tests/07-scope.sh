#!/usr/bin/env bash
# Fails where a definition refers to a section that docs/scope.md does not have, where a file of definitions refers to none, or where
# the scope's last table names a file that is not there.
set -euo pipefail
cd "$(dirname "$0")/.."
python3 -B tests/documents/scope.py
