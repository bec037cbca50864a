#!/usr/bin/env bash
# Instructions of `gotime sim`, counted by valgrind, where a script has many names: short ones, and names of 32 bytes that differ early or late. 4,095 timers are
# accepted, 27,000 and 108,000 are refused. It is run by hand and judges nothing. The table of names is ordered: no choice of names can cost more than their
# comparison at each level of the table.
top=$(cd "$(dirname "${BASH_SOURCE[0]}")/.." && pwd) || exit 1
if ! command -v valgrind >/dev/null; then
    echo "bench: valgrind is missing, so nothing was counted"
    exit 0
fi
"$top/gotime" sim <"$top/examples/sleep.gotime" >/dev/null || exit 1
program=$(echo "$top"/out/gotime-*)
work=$(mktemp -d) || exit 1
trap 'rm -rf "$work"' EXIT

# names PREFIX SUFFIX COUNT: lines that declare timers
names() {
    seq -f "timer $1%06.0f$2" 1 "$3"
}

# counted LABEL: the instructions of a run on the script
counted() {
    valgrind --tool=callgrind --callgrind-out-file="$work/out" "$program" sim <"$work/script" 2>"$work/log" >"$work/trace"
    echo "$1: $(sed -n 's/.*Collected : \([0-9]*\).*/\1/p' "$work/log") instructions for $(wc -l <"$work/script") lines, $(wc -c <"$work/script") bytes"
}

# script PREFIX SUFFIX COUNT LABEL: counts a script with so many of these names
script() {
    (echo "gotime script 1" && names "$1" "$2" "$3" && printf 'func main\nend\n') >"$work/script"
    counted "$4"
}

more=aaaaaaaaaaaaaaaaaaaaaaaaa
for count in 4095 27000 108000; do
    script t "" "$count" "short names"
    script t "$more" "$count" "names that differ early"
    script "t$more" "" "$count" "names that differ late"
done
