#!/usr/bin/env bash
# Instructions per entry of `gotime sim`, counted by valgrind, for runs of 1,000 and of 100,000 entries or, with many timers, 12,000. What a run without instructions takes under the same limit is taken off. It is run by hand and judges nothing.
top=$(cd "$(dirname "${BASH_SOURCE[0]}")/.." && pwd) || exit 1
if ! command -v valgrind >/dev/null; then
    echo "bench: valgrind is missing, so nothing was counted"
    exit 0
fi
"$top/gotime" sim <"$top/examples/sleep.gotime" >/dev/null || exit 1
program=$(echo "$top"/out/gotime-*)
work=$(mktemp -d) || exit 1
trap 'rm -rf "$work"' EXIT

# repeated WORDS COUNT: a line with these words, so many times
repeated() {
    yes "$1" | head -n "$2"
}

# script KIND COUNT: a script whose run makes about so many entries
script() {
    echo "gotime script 1"
    case $1 in
    nothing) printf 'func main\nend\n' ;;
    say) echo "func main" && repeated "say 1" "$2" && echo "end" ;;
    loop) printf 'func main\nloop 10\nloop %s\nsay 1\nend\nend\nend\n' "$(($2 / 10))" ;;
    sleep) echo "func main" && repeated "sleep 1ms" "$(($2 / 3))" && echo "end" ;;
    reset) printf 'timer t\nfunc main\nnew t 1ms\n' && repeated "reset t 1ms" "$2" && echo "end" ;;
    receive) printf 'timer t\nfunc main\nnew t 1ms\n' && repeated $'recv t\nreset t 1ms' "$(($2 / 3 * 2))" && echo "end" ;;
    sleepers) echo "func main" && repeated "go a" "$(($2 / 6))" && printf 'sleep 1h\nend\nfunc a\nsleep 1ms\nsleep 1ms\nend\n' ;;
    timers)
        local timers=$(($2 / 3))
        seq "$timers" | sed 's/.*/afterfunc t& a/'
        printf 'func a\nend\nfunc main\n'
        seq "$timers" | sed 's/.*/new t& &us/'
        printf 'sleep 1h\nend\n'
        ;;
    buffered) printf 'chan c 1\nfunc main\nmake c\n' && repeated $'send c 1\nrecv c' "$(($2 / 2))" && echo "end" ;;
    pairs) printf 'chan c 0\nfunc main\nmake c\ngo a\nloop %s\nsend c 1\nend\nend\nfunc a\nloop %s\nrecv c\nend\nend\n' "$2" "$2" ;;
    senders)
        local waiting=$(($2 / 3))
        printf 'chan c 0\nfunc main\nmake c\n' && repeated "go a" "$waiting" && echo "sleep 1ms"
        repeated "recv c" "$waiting" && printf 'sleep 1ms\nend\nfunc a\nsend c 1\nend\n'
        ;;
    closed)
        printf 'chan c 0\nfunc main\nmake c\n' && repeated "go a" "$(($2 / 3))"
        printf 'sleep 1ms\nclose c\nsleep 1ms\nend\nfunc a\nrecv c\nend\n'
        ;;
    wg)
        local waiting=$(($2 / 3))
        printf 'wg w\nfunc main\nadd w 1\n' && repeated "go a" "$waiting"
        printf 'sleep 1ms\ndone w\nsleep 1ms\nend\nfunc a\nwait w\nend\n'
        ;;
    mutex)
        local waiting=$(($2 / 4))
        printf 'mutex m\nfunc main\nlock m\n' && repeated "go a" "$waiting"
        printf 'sleep 1ms\nunlock m\nsleep 1ms\nend\nfunc a\nlock m\nunlock m\nend\n'
        ;;
    cond)
        local waiting=$(($2 / 6))
        printf 'mutex m\ncond k m\nfunc main\n' && repeated "go a" "$waiting"
        printf 'sleep 1ms\n' && repeated "signal k" "$((waiting / 2))"
        printf 'broadcast k\nsleep 1ms\nend\nfunc a\nlock m\ncwait k\nunlock m\nend\n'
        ;;
    signals)
        local waiting=$(($2 / 11))
        printf 'mutex m\ncond k m\nfunc main\n' && repeated "go a" "$waiting" && printf 'sleep 1ms\nlock m\n'
        repeated "go b" "$waiting" && printf 'sleep 1ms\n' && repeated "signal k" "$waiting"
        printf 'unlock m\nsleep 1ms\nend\nfunc a\nlock m\ncwait k\nunlock m\nend\nfunc b\nlock m\nunlock m\nend\n'
        ;;
    ticks) printf 'ticker k\nfunc main\nnew k 1ms\nloop %s\nsleep 3ms\nrecv k\nend\nend\n' "$(($2 / 4))" ;;
    cases)
        seq -f 'chan c%g 0' 16
        printf 'func main\n' && seq -f 'make c%g' 16 && seq -f 'go f%g' 16
        printf 'loop %s\nselect\n' "$(($2 / 16 * 16))" && seq -f 'case recv c%g' 16 && printf 'end\nend\nend\n'
        local i
        for i in $(seq 16); do printf 'func f%s\nloop %s\nsend c%s 1\nend\nend\n' "$i" "$(($2 / 16))" "$i"; done
        ;;
    chain | star)
        # a tree of names, made, canceled at its root, and looked at
        local names=$(($2 / 2))
        if [ "$names" -gt 4000 ]; then names=4000; fi
        echo "ctx x0 root cancel"
        if [ "$1" = chain ]; then seq "$names" | awk '{print "ctx x" $1 " x" $1 - 1 " cancel"}'; else seq -f 'ctx x%g x0 cancel' "$names"; fi
        printf 'func main\n' && seq -f 'with x%g' 0 "$names" && echo "cancel x0" && seq -f 'err x%g' "$names" && echo "end"
        ;;
    ends)
        # contexts that are made and canceled one after the other, below one that lives, each with its deadline
        local names=$(($2 / 2))
        if [ "$names" -gt 4000 ]; then names=4000; fi
        echo "ctx x0 root cancel" && seq -f 'ctx x%g x0 timeout 1s' "$names"
        printf 'func main\nwith x0\n' && seq "$names" | sed 's/.*/with x&\ncancel x&/' && echo "end"
        ;;
    waiters)
        local waiting=$(($2 / 3))
        printf 'ctx x root cancel\nctx y x cancel\nfunc main\nwith x\nwith y\n' && repeated "go a" "$((waiting / 2))" && repeated "go b" "$((waiting / 2))"
        printf 'sleep 1ms\ncancel x\nsleep 1ms\nend\nfunc a\nrecv x\nend\nfunc b\nrecv y\nend\n'
        ;;
    go) printf 'timer t\nfunc main\nnew t 1ms\nstop t\ngo a\nrecv t\nend\nfunc a\ngo a\nend\n' ;;
    esac
}

# instructions LIMIT: how many instructions the program takes on the script
instructions() {
    valgrind --tool=callgrind --callgrind-out-file="$work/out" "$program" sim -l "$1" <"$work/script" 2>"$work/log" >"$work/trace"
    sed -n 's/.*Collected : \([0-9]*\).*/\1/p' "$work/log"
}

# A chain of goroutines goes on until its limit, the others to their end. A script has at most 4,096 names.
for kind in say loop sleep reset receive go sleepers timers buffered pairs senders closed cases ticks wg mutex cond signals chain star ends waiters; do
    for count in 1000 99000; do
        limit=200000
        if [ "$kind" = timers ] && [ "$count" -gt 12000 ]; then count=12000; fi
        if [ "$kind" = go ]; then limit=$count; fi
        script nothing 0 >"$work/script"
        base=$(instructions "$limit")
        script "$kind" "$count" >"$work/script"
        total=$(instructions "$limit")
        entries=$(wc -l <"$work/trace")
        echo "$kind: $entries lines, $(((total - base) / entries)) instructions per line; a run without instructions: $base"
    done
done
