#!/bin/sh
# The Rust package over the proved library: its tests, its doc tests and its example. Needs rt, make and cargo.
set -e
cd "$(dirname "$0")/.."
make -s library
cargo test --offline --release --quiet --manifest-path rust/Cargo.toml
out=$(mktemp)
trap 'rm -f "$out"' EXIT
cargo run --offline --release --quiet --manifest-path rust/Cargo.toml --example bench >"$out"
cmp "$out" rust/examples/bench.txt
