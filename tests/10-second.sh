#!/usr/bin/env bash
# The second program, written from the scope alone, holds its own tests; so does the comparison, over programs with a
# slip of their own; and the stored corpus is the one that the second program writes.
set -euo pipefail
cargo test --release --offline --quiet --manifest-path second/Cargo.toml
cargo test --release --offline --quiet --manifest-path second/compare/Cargo.toml
cargo build --release --offline --quiet --manifest-path second/Cargo.toml
second/target/release/second stored 1 | cmp - crates/corpus/stdin
