#!/usr/bin/env bash
# Instructions per call of the heap, counted by valgrind, on heaps of 1,000 and of 200,000 entries with drawn keys. What draws the key and the place of a call is counted with it. It is run by hand and judges nothing.
top=$(cd "$(dirname "${BASH_SOURCE[0]}")/.." && pwd) || exit 1
if ! command -v valgrind >/dev/null; then
    echo "bench: valgrind is missing, so nothing was counted"
    exit 0
fi
program=$top/crates/gt_heap_bench/out/gt_heap_bench
work=$(mktemp -d) || exit 1
trap 'rm -rf "$work"' EXIT
if [ ! -x "$program" ]; then
    echo "bench: proving and building the program, once .." >&2
    (cd "$top/crates/gt_heap_bench" && rt run -- push 1000) >"$work/log" 2>&1
    if [ ! -x "$program" ]; then
        echo "bench: the build failed:" >&2
        tail -20 "$work/log" >&2
        exit 1
    fi
fi

# instructions CALLS SIZE: how many instructions the program takes
instructions() {
    valgrind --tool=callgrind --callgrind-out-file="$work/out" "$program" "$1" "$2" 2>"$work/log" >/dev/null
    sed -n 's/.*Collected : \([0-9]*\).*/\1/p' "$work/log"
}

for size in 1000 200000; do
    base=$(instructions fill "$size")
    echo "a heap of $size entries: $base instructions, of which $((base / size)) per entry"
    for calls in push pop change; do
        total=$(instructions "$calls" "$size")
        echo "1000 times '$calls' on $size entries: $(((total - base) / 1000)) per call"
    done
done
