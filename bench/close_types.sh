#!/usr/bin/env bash
# How long the program takes to close as many types as a script may have, and to refuse more: `mono check` on six groups of classes that
# close to 4,095 types, on the same with one class more, on one group of 12 classes, and on the six groups with 64 fields in each class.
# Prints the seconds of each. To close them is to take under one, and to make their table another: so under two where they are accepted, under
# one where they are refused, and under five for 64 fields; else the status is 1.
#
#     bench/close_types.sh
#
# It builds the program first where ./mono would. It is no part of `rt ci`.
source "$(dirname -- "${BASH_SOURCE[0]}")/counting.sh"

# Groups of so many classes, each class with so many fields and at least as many as its group has classes: class i of a group has all the
# group's fields, its own `int` and the others `Dyn`.
groups() {
    awk -v fields="$1" -v sizes="${*:2}" 'BEGIN {
        n = split(sizes, size, " ")
        for (g = 1; g <= n; g++)
            for (i = 0; i < size[g]; i++) {
                printf "class G%dx%d:\n", g, i
                for (j = 0; j < (fields > size[g] ? fields : size[g]); j++)
                    printf "    g%df%d: %s\n", g, j, (i == j ? "int" : "Dyn")
            }
    }'
}

built
limit=2000    # milliseconds
groups 0 11 10 9 8 7 7 >"$work/script.py"
timed check "4,095 types" 0 ""
limit=1000
printf 'class One:\n    more: int\n' >>"$work/script.py"
timed check "one type more" 1 "refused 1:1: too many types"
groups 0 12 >"$work/script.py"
timed check "one group of 12 classes" 1 "refused 1:1: too many types"
limit=5000
groups 64 11 10 9 8 7 7 >"$work/script.py"
timed check "4,095 types of 64 fields" 0 ""
[ "$over" -eq 0 ] || fail "a time is over its limit"
