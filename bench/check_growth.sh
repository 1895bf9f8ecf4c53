#!/usr/bin/env bash
# Whether `mono check` and `mono show`, which number a script too, do work linear in what it has: counts the instructions of both on scripts
# with 1,000, 2,000 and 4,000 names of one block, functions, and lines of one sum, and with 250, 500 and 1,000 classes of one field, of which
# there may be no more than 1,023, and prints the two ratios of each. Each is to be at most 2.2; else the status is 1. Types aren't among
# them: each two have a place in the table of meets, so the work grows with their square, up to 4,095 of them, which close_types.sh times.
#
#     bench/check_growth.sh
#
# It wants valgrind, builds the program first where ./mono would, and takes some minutes. It is no part of `rt ci`. The scripts
# are laid out as `show` prints them, so that its output is the script.
source "$(dirname -- "${BASH_SOURCE[0]}")/counting.sh"

# A script with so many of these.
script_of() {
    awk -v unit="$1" -v n="$2" '
        BEGIN {
            if (unit == "sums") print "total = 0"
            for (k = 0; k < n; k++) {
                if (unit == "names") print "a" k " = 1"
                if (unit == "classes") print "class C" k ":\n    value: int"
                if (unit == "functions") print "def f" k "(a: int) -> int:\n    return a"
                if (unit == "sums") print "total = total + " k
            }
        }'
}

# The instructions of $verb on a script with so many of $unit.
count() {
    local status=0
    script_of "$unit" "$1" >"$work/script.py"
    counted "$root/crates/mono/out/mono" "$verb" "$work/script.py" || status=$?
    [ "$status" -eq 0 ] && [ ! -s "$work/err" ] || fail "$verb, $1 $unit: status $status: $(head -c 300 "$work/err")"
    if [ "$verb" = show ]; then
        cmp -s "$work/script.py" "$work/out" || fail "show, $1 $unit: $(diff "$work/script.py" "$work/out" | head -n 4)"
    else
        [ "$(cat "$work/out")" = ok ] || fail "check, $1 $unit: $(head -c 300 "$work/out")"
    fi
    instructions
}

ready
for unit in names classes functions sums; do
    sizes=(1000 2000 4000)
    [ "$unit" != classes ] || sizes=(250 500 1000)
    for verb in check show; do
        echo "$verb"
        compare "$unit" "${sizes[@]}"
    done
done
