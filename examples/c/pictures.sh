#!/usr/bin/env bash
# Draws the pictures of README into a folder: a plate, and the pump cover with the old way's table and with ours. With --check
# instead it only says whether the pictures in the folder are those.
set -euo pipefail
check=()
if [ "$1" = --check ]; then check=(--check) && shift; fi
folder=$1
. tests/common/x86.sh
second=second/target/release/second
env -u CARGO_TARGET_DIR cargo build --release --offline --quiet --manifest-path second/Cargo.toml
work=target/pictures
mkdir -p "$work" "$folder"
CC86 -std=c99 -O2 -Iinclude examples/c/pixels.c target/staticlib/libblist.a -o "$work/pixels"
echo 1-2-3 | RUN86 "$work/pixels" plate text > "$work/plate.ppm"
RUN86 "$work/pixels" cover text < examples/pump-cover.txt > "$work/cover-ours.ppm"
"$second" old-table < examples/pump-cover.txt | RUN86 "$work/pixels" cover table > "$work/cover-old.ppm"
for name in plate cover-old cover-ours; do
    python3 examples/c/png.py "${check[@]}" "$work/$name.ppm" "$folder/$name.png"
done
