#!/bin/sh
# Proves and builds the library, builds the Rust original and the benchmark, and writes docs/BENCHMARKS.md. A compressor is in it where it is there, and instructions where valgrind is.
set -eu
cd "$(dirname "$0")"
(cd ../crates/exports && rt lib)
cargo build --offline --quiet --release -p compare
target/release/bench > ../docs/BENCHMARKS.md
./year.sh >> ../docs/BENCHMARKS.md
./instructions.sh >> ../docs/BENCHMARKS.md
cat ../docs/BENCHMARKS.md
