#!/usr/bin/env bash
# Instructions of a worker's note with the look after it when the heap is to be looked through, and of one time that the book and a record are brought together, counted by valgrind: the difference of 101,000 and 1,000 of them, divided. It is run by hand and judges nothing.
top=$(cd "$(dirname "${BASH_SOURCE[0]}")/.." && pwd) || exit 1
if ! command -v valgrind >/dev/null; then
    echo "bench: valgrind is missing, so nothing was counted"
    exit 0
fi
program=$top/crates/gt_words_bench/out/gt_words_bench
work=$(mktemp -d) || exit 1
trap 'rm -rf "$work"' EXIT
if [ ! -x "$program" ]; then
    echo "bench: proving and building the program, once .." >&2
    (cd "$top/crates/gt_words_bench" && rt run <stdin) >"$work/log" 2>&1
    if [ ! -x "$program" ]; then
        echo "bench: the build failed:" >&2
        tail -20 "$work/log" >&2
        exit 1
    fi
fi

# instructions CALLS COUNT: how many instructions the program takes
instructions() {
    echo "$1 $2" | valgrind --tool=callgrind --callgrind-out-file="$work/out" "$program" 2>"$work/log" >/dev/null
    sed -n 's/.*Collected : \([0-9]*\).*/\1/p' "$work/log"
}

for calls in note agree; do
    base=$(instructions "$calls" 1000)
    total=$(instructions "$calls" 101000)
    echo "$calls: $(((total - base) / 100000)) instructions each; 1000 of them with the start and the end of the program: $base"
done
