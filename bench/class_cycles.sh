#!/usr/bin/env bash
# How long the program takes to refuse classes that lead back to themselves: `mono step` on 20,000 classes in one cycle, on
# 20,000 in a chain into a class that names itself, on 20,000 that each name such a class, and on 57,000 classes without a
# cycle. Prints the seconds of each. Each is to take under two seconds; else the status is 1.
#
#     bench/class_cycles.sh
#
# It builds the program first where ./mono would. It is no part of `rt ci`.
source "$(dirname -- "${BASH_SOURCE[0]}")/counting.sh"

limit=2000    # milliseconds

# Classes C0 to C(n-1), each with a field of the class that `next` gives, as an awk expression of n and k.
classes() {
    awk -v n="$1" "BEGIN { for (k = 0; k < n; k++) printf \"class C%d:\\n f: C%d\\n\", k, ($2) }"
}

built
classes 20000 '(k + 1) % n' >"$work/script.py"
timed step "20,000 classes in one cycle" 1 "refused 2:5: recursive class"
classes 20000 'k + 1 < n ? k + 1 : k' >"$work/script.py"
timed step "20,000 classes in a chain into one" 1 "refused 40000:5: recursive class"
classes 20000 'n - 1' >"$work/script.py"
timed step "20,000 classes that name one" 1 "refused 40000:5: recursive class"

# 57,000 classes need names of three letters for 1 MiB. `Dyn` is taken.
awk 'BEGIN {
    small = "abcdefghijklmnopqrstuvwxyz"
    letters = small toupper(small)
    for (k = 0; n < 57000; k++) {
        name = toupper(substr(small, int(k / 2704) + 1, 1)) substr(letters, int(k / 52) % 52 + 1, 1) substr(letters, k % 52 + 1, 1)
        if (name == "Dyn") continue
        printf "class %s:\n f:int\n", name
        n++
    }
}' >"$work/script.py"
timed step "57,000 classes without a cycle" 0 ""
[ "$over" -eq 0 ] || fail "over $limit ms"
