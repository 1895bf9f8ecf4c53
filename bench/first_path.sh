#!/usr/bin/env bash
# Whether the way from a script's bytes to its output is linear: counts the instructions of `mono step` on scripts of
# 10,000, 20,000 and 40,000 lines `print(1)` and prints the two ratios. Each is to be at most 2.2; else the status is 1.
#
#     bench/first_path.sh
#
# It wants valgrind, builds the program first where ./mono would, and takes about a minute. It is no part of `rt ci`.
#
# A run draws 2 print words for each of these lines and has 65,536 of them, so at 40,000 lines it prints 32,768 and then
# ends with `limit: print`, status 5. Its instructions are counted all the same: it has read all lines by then. The second
# ratio so says more of the reading than of the running, and the first says the same of both.
source "$(dirname -- "${BASH_SOURCE[0]}")/counting.sh"

printed=32768    # at most

# The instructions of a script of so many lines.
count() {
    local lines=$1 status=0 wanted=0
    [ "$lines" -le "$printed" ] || { lines=$printed && wanted=5; }
    awk -v n="$1" 'BEGIN { for (i = 0; i < n; i++) print "print(1)" }' >"$work/script.py"
    counted "$root/crates/mono/out/mono" step "$work/script.py" || status=$?
    [ "$status" -eq "$wanted" ] || fail "$1 lines: status $status, and not $wanted: $(head -c 300 "$work/err")"
    [ "$(grep -c '^1$' "$work/out")" -eq "$lines" ] || fail "$1 lines: not $lines lines of output"
    instructions
}

ready
compare lines 10000 20000 40000
