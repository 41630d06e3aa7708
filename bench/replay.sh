#!/usr/bin/env bash
# Speed of replay: check and commit of full blocks (1,024 transactions, 256 accounts, about 1,000 resting offers) and of quarter blocks,
# over each make of store and book, beside the independent Rust program over BTreeMap, on the same files, in one run. Prints microseconds
# a block: the fastest of so many runs of the whole program, less its time on the founding alone.
# Usage: bench/replay.sh [BLOCKS] [RUNS]    (default: 1000 blocks, 5 runs)
set -euo pipefail
cd "$(dirname "$0")/.."
blocks=${1:-1000}
runs=${2:-5}
(cd crates/replay && rt run -- --help > /dev/null 2>&1)
cargo build --release --offline --quiet --manifest-path independent/Cargo.toml
rust=independent/target/release
files=$(mktemp -d)
trap 'rm -rf "$files"' EXIT
for kind in full quarter; do
    "$rust/generate" 1 "$kind" "$blocks" > "$files/$kind"
    "$rust/generate" 1 "$kind" 0 > "$files/$kind.founding"
done

# the fastest of the runs of a command, in nanoseconds
fastest() {
    local best=0 start took
    for _ in $(seq "$runs"); do
        start=$(date +%s%N)
        "$@" > "$files/out"
        took=$(($(date +%s%N) - start))
        if [ "$best" -eq 0 ] || [ "$took" -lt "$best" ]; then best=$took; fi
    done
    echo "$best"
}

# microseconds a block
per_block() {
    local kind=$1 whole bare
    shift
    whole=$(fastest "$@" "$files/$kind")
    bare=$(fastest "$@" "$files/$kind.founding")
    echo $(((whole - bare) / blocks / 1000))
}

printf '%-24s %10s %10s\n' '' full quarter
printf '%-24s %10s %10s\n' 'Rust, BTreeMap' "$(per_block full "$rust/replay")" "$(per_block quarter "$rust/replay")"
for store in sorted hashed; do
    for book in trie table; do
        printf '%-24s %10s %10s\n' "$store store, $book" \
            "$(per_block full crates/replay/out/replay --store "$store" --book "$book")" \
            "$(per_block quarter crates/replay/out/replay --store "$store" --book "$book")"
    done
done
"$rust/replay" "$files/full" > "$files/rust"
crates/replay/out/replay "$files/full" > "$files/ours"
cmp "$files/rust" "$files/ours" && echo 'both print the same for the full blocks'
