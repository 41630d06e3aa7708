#!/bin/sh
# Times the account stores beside Rust's BTreeMap and HashMap. Needs rt and rustc. Writes to target/bench/ alone.
set -eu
cd "$(dirname "$0")/.."
(cd crates/bench_stores && rt lib >/dev/null)
mkdir -p target/bench
rustc -O -C target-cpu=native --edition 2024 -o target/bench/stores bench/stores.rs \
    -L crates/bench_stores/out -l static=bench_stores
exec target/bench/stores
