#!/bin/sh
# Times SHA-256 of 64 MiB by streaming from a file: our program `hash`, the same in ordinary Rust (bench/sha256.rs,
# rustc -O), and sha256sum. Prints for each the least time of some runs, taken in turn on the same input.
# Usage: bench/sha256.sh [RUNS]    (default 7). Needs rt, rustc, and GNU date and sha256sum.
set -eu
cd "$(dirname "$0")/.."
runs=${1:-7}
work=$(mktemp -d)
trap 'rm -rf "$work"' EXIT

(cd crates/hash && rt run </dev/null) >"$work/log" 2>&1 || { tail -n 20 "$work/log" >&2; exit 1; }
rustc -O --edition 2021 -o "$work/rust" bench/sha256.rs
head -c 67108864 /dev/urandom >"$work/input"

# the milliseconds that one run of a program takes; what it prints goes to a file
timed() {
    start=$(date +%s%N)
    "$1" <"$work/input" >"$work/digest.$2"
    end=$(date +%s%N)
    echo $(((end - start) / 1000000))
}

ours=999999 rust=999999 system=999999
for _ in $(seq "$runs"); do
    t=$(timed crates/hash/out/hash ours) && [ "$t" -ge "$ours" ] || ours=$t
    t=$(timed "$work/rust" rust) && [ "$t" -ge "$rust" ] || rust=$t
    t=$(timed sha256sum system) && [ "$t" -ge "$system" ] || system=$t
done

# all three must agree
sed -i 's/ .*//' "$work/digest.system"
cmp "$work/digest.ours" "$work/digest.rust"
cmp "$work/digest.ours" "$work/digest.system"

printf '%-28s %8s %8s\n' "64 MiB, best of $runs" ms MiB/s
printf '%-28s %8d %8d\n' 'hash (proved)' "$ours" $((64000 / ours))
printf '%-28s %8d %8d\n' 'Rust, rustc -O' "$rust" $((64000 / rust))
printf '%-28s %8d %8d\n' sha256sum "$system" $((64000 / system))
