#!/bin/sh
# Times keep on 1,024 entries of which none covers another: the proved program against the same loop in plain Rust.
# Usage: bench/keep.sh [TIMES]. It prints the best of five runs of each in seconds, and the ratio; 1.00 or below is the aim.
set -eu
cd "$(dirname "$0")/.."
times=${1:-1000}
(cd crates/keep_bench && rt run -- 1 >/dev/null)
mkdir -p target/bench
rustc -O bench/keep.rs -o target/bench/keep

nanoseconds() {
    start=$(date +%s%N)
    "$@" >/dev/null
    end=$(date +%s%N)
    echo $((end - start))
}

if [ "$(crates/keep_bench/out/keep_bench "$times")" != "$(target/bench/keep "$times")" ]; then
    echo "the two programs disagree" >&2
    exit 1
fi
for _ in 1 2 3 4 5; do
    echo "proved $(nanoseconds crates/keep_bench/out/keep_bench "$times")"
    echo "rust $(nanoseconds target/bench/keep "$times")"
done | awk -v times="$times" '
    !($1 in best) || $2 < best[$1] { best[$1] = $2 }
    END {
        printf "%d times keep of 1,024 entries: proved %.3f s, rustc -O %.3f s, ratio %.2f\n", times, best["proved"] / 1e9, best["rust"] / 1e9, best["proved"] / best["rust"]
    }'
