#!/bin/sh
# Times the reading of full blocks, 1,024 payments each: `inspect --totals`, and the same in ordinary Rust (bench/reader.rs, rustc -O).
# Prints for each the least time of some runs, taken in turn on the same input: in all, and less that for the same bytes
# behind one that is no letter, which are taken in and not read.
# Usage: bench/reader.sh [RUNS]    (default 7). Needs rt, rustc, python3 and GNU date.
set -eu
cd "$(dirname "$0")/.."
runs=${1:-7}
blocks=2000
work=$(mktemp -d)
trap 'rm -rf "$work"' EXIT

(cd crates/inspect && rt run </dev/null) >"$work/log" 2>&1 || { tail -n 20 "$work/log" >&2; exit 1; }
rustc -O --edition 2021 -o "$work/rust" bench/reader.rs
python3 - "$work/input" "$blocks" <<'PY'
import sys
sys.path.insert(0, "examples")
sys.dont_write_bytecode = True
import make
pays = b"".join(make.pay(1 + i % 3, 1 + i // 3, 1 + (i + 1) % 3, 0, 1 + i, b"memo") for i in range(1024))
block = make.OPENING + pays + b"E"
with open(sys.argv[1], "wb") as out, open(sys.argv[1] + ".unread", "wb") as unread:
    unread.write(b"?")
    for part in [make.FOUNDING] + [block] * int(sys.argv[2]):
        out.write(part)
        unread.write(part)
PY

# the microseconds that one run of a program takes on a file; what it prints goes to another
timed() {
    input=$1 name=$2
    shift 2
    start=$(date +%s%N)
    "$@" <"$input" >"$work/said.$name"
    end=$(date +%s%N)
    echo $(((end - start) / 1000))
}
less() {
    if [ "$1" -lt "$2" ]; then echo "$1"; else echo "$2"; fi
}

ours=999999999 rust=999999999 ours_in=999999999 rust_in=999999999
for _ in $(seq "$runs"); do
    ours_in=$(less "$ours_in" "$(timed "$work/input.unread" none crates/inspect/out/inspect --totals)")
    rust_in=$(less "$rust_in" "$(timed "$work/input.unread" none "$work/rust")")
    ours=$(less "$ours" "$(timed "$work/input" ours crates/inspect/out/inspect --totals)")
    rust=$(less "$rust" "$(timed "$work/input" rust "$work/rust")")
done
cmp "$work/said.ours" "$work/said.rust"

row() {
    echo "$2 $3 $blocks" | awk -v name="$1" '{printf "%-30s %8.0f %12.0f %18.2f\n", name, $1 / 1000, ($1 - $2) / 1000, ($1 - $2) / $3}'
}
printf '%-30s %8s %12s %18s\n' "$blocks full blocks, best of $runs" ms 'reading, ms' 'reading a block, us'
row 'inspect --totals (proved)' "$ours" "$ours_in"
row 'Rust, rustc -O' "$rust" "$rust_in"
