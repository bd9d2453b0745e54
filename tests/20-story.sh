#!/usr/bin/env bash
# README's story, run as it stands there, by the proved program: the plate's table; the pump cover, nine labels the old way,
# four ours. Then the whole listing of the pump cover, as the second program has it; and the pictures are there.
set -euo pipefail
cd "$(dirname "$0")/.."
test -x target/bin/list || { echo "story: target/bin/list is not built"; exit 1; }
cargo build --release --offline --quiet --manifest-path second/Cargo.toml
python3 -B tests/documents/commands.py README.md
./list < examples/pump-cover.txt | cmp - <(second/target/release/second list < examples/pump-cover.txt)
for picture in $(grep -o 'docs/pictures/[a-z-]*\.png' README.md); do
    test -s "$picture" || { echo "story: README shows $picture, which is not there"; exit 1; }
done
echo "story: ok"
