#!/usr/bin/env bash
# Write calls of `gotime sim` for a trace of 100,000 lines to a file, counted by strace. It is run by hand; at most 200 are wanted.
top=$(cd "$(dirname "${BASH_SOURCE[0]}")/.." && pwd) || exit 1
if ! command -v strace >/dev/null; then
    echo "bench: strace is missing, so nothing was counted"
    exit 0
fi
"$top/gotime" --version >/dev/null || exit 1
work=$(mktemp -d) || exit 1
trap 'rm -rf "$work"' EXIT

# script LINE: a script whose run makes 100,000 entries with this instruction, and one that makes a timer with a long name before
script() {
    printf 'gotime script 1\ntimer a_name_of_thirty_two_bytes_whole\nfunc main\nnew a_name_of_thirty_two_bytes_whole 1h\n'
    yes "$1" | head -n 99998
    echo end
}

for line in "say 1" "reset a_name_of_thirty_two_bytes_whole 2562047h"; do
    script "$line" >"$work/script"
    strace -e trace=write -o "$work/calls" "$top"/out/gotime-* sim -l 200000 <"$work/script" >"$work/trace"
    echo "$line: $(wc -l <"$work/trace") lines, $(wc -c <"$work/trace") bytes, $(grep -c '^write' "$work/calls") write calls"
done
