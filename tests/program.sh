#!/bin/sh
# The proved program against the second implementation, byte for byte, on good, bad and random texts; stops at the first difference.
cd "$(dirname "$0")/.." || exit 2
make -s program || exit 1
exec cargo run --release --offline --quiet --manifest-path tests/reference/Cargo.toml --bin against -- target/bin/show
