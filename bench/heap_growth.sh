#!/usr/bin/env bash
# Whether reads, writes and casts of objects cost the same in a small heap and in a large one: counts the instructions of
# 500 of each behind 1,200, 4,800 and 19,200 other objects, and prints what one of them costs, its line's reading with it.
# The cost in the largest heap is to be at most 1.25 times that in the smallest; else the status is 1.
#
#     bench/heap_growth.sh
#
# It wants valgrind, builds the program first where ./mono would, and takes about a minute. It is no part of `rt ci`.
#
# An object is found by halving among the addresses of all, so a little growth is to be expected: two steps of the search for
# each fourfold heap. The numbers are such that no list of the script's lines has to grow among the lines that are counted.
source "$(dirname -- "${BASH_SOURCE[0]}")/counting.sh"

times=500
most=125

# A script with so many objects, half of them made before `p` and half behind it, and then this line so many times.
script() {
    awk -v n="$1" -v line="$2" -v times="$3" 'BEGIN {
        print "class P:\n    x: Dyn\n\nclass Q:\n    x: int\n"
        for (i = 0; i < n / 2; i++) print "a = P(0)"
        print "p = P(1)"
        for (i = 0; i < n / 2; i++) print "a = P(0)"
        for (i = 0; i < times; i++) print line
    }' >"$work/script.py"
}

# The instructions of the script.
count() {
    counted "$root/crates/mono/out/mono" step "$work/script.py" || fail "a script didn't end well: $(head -c 300 "$work/err")"
    instructions
}

# What the line costs once, behind so many objects.
cost() {
    local with without
    script "$1" "$2" "$times"
    with=$(count)
    script "$1" "$2" 0
    without=$(count)
    echo $(((with - without) / times))
}

ready
over=0
for line in 'y = p.x' 'p.x = 2' 'q = cast(Q, p)'; do
    small=$(cost 1200 "$line")
    middle=$(cost 4800 "$line")
    large=$(cost 19200 "$line")
    printf '%-16s %8d %8d %8d instructions behind 1200, 4800 and 19200 objects\n' "$line" "$small" "$middle" "$large"
    [ $((100 * large)) -le $((most * small)) ] || over=1
done
[ "$over" -eq 0 ] || fail "a cost grows by more than a quarter"
