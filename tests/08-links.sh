#!/usr/bin/env bash
# Fails where a document names a file that is not there.
set -euo pipefail
cd "$(dirname "$0")/.."
python3 -B tests/documents/links.py
