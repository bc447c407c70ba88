#!/usr/bin/env bash
# Writes and reads groups with the library and with a plain Rust program, one after the other: bench/run.sh [GROUPS]
set -eu
cd "$(dirname "$0")/.."
groups=${1:-200}
mkdir -p target
(cd crates/speed && rt run > ../../target/bench.log 2>&1) || { tail -n 5 target/bench.log; exit 1; }
cargo build --quiet --release --manifest-path bench/Cargo.toml --target-dir target/bench
echo "the library:"
crates/speed/out/speed "$groups"
echo "plain Rust:"
target/bench/release/bench "$groups"
