#!/bin/sh
# Times the offer books beside Rust's BTreeMap. Needs rt and rustc. Writes to target/bench/ alone.
set -eu
cd "$(dirname "$0")/.."
kit=$(dirname "$(rt doc)")
(cd crates/bench_books && rt lib >/dev/null)
mkdir -p target/bench
rustc -O -C target-cpu=native --edition 2024 -o target/bench/books bench/books.rs \
    -L crates/bench_books/out -l static=bench_books -L "$kit/c" -l static=os_c -l static=libc_c
exec target/bench/books
