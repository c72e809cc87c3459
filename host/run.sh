#!/bin/sh
# Builds the proved library, runs the example in C and the one in Rust, follows the library's stores, and runs the tests of both.
set -eu
cd "$(dirname "$0")/.."

(cd crates/exports && rt lib)
mkdir -p host/target
for example in week trace; do
    "${CC:-cc}" -std=c11 -O2 -Wall -Wextra -Ihost/include "host/c/$example.c" -o "host/target/$example" crates/exports/out/libexports.a
done

echo "== C"
host/target/week
host/target/trace
cd host
echo "== Rust"
cargo run --offline --quiet --release --example week
echo "== tests"
cargo test --offline --quiet --release
