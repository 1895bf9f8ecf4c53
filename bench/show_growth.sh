#!/usr/bin/env bash
# Whether the way from a script's bytes to its printed text is linear: counts the instructions of `mono show` on a quarter, a
# half and a whole MiB of a short script repeated, filled up by a comment, and prints the two ratios. Each is to be at most
# 2.2; else the status is 1.
#
#     bench/show_growth.sh
#
# It wants valgrind, builds the program first where ./mono would, and takes some minutes. It is no part of `rt ci`. What is
# counted is all that `show` does: reading the file, its tree, names, types and casts, and printing.
source "$(dirname -- "${BASH_SOURCE[0]}")/counting.sh"

cat >"$work/one" <<'PART'
x = ((1+2))*3  # its brackets and its comment go
if x == 9 :
  print(x,"a\tb",  not (x < 4))
else:
  x = x - (2 - 1)

PART
cat >"$work/wanted" <<'PART'
x = (1 + 2) * 3
if x == 9:
    print(x, "a\tb", not x < 4)
else:
    x = x - (2 - 1)
PART

# The instructions of a script of so many bytes.
count() {
    local status=0
    repeated "$work/one" "$1" >"$work/script.py"
    counted "$root/crates/mono/out/mono" show "$work/script.py" || status=$?
    [ "$status" -eq 0 ] && [ ! -s "$work/err" ] || fail "$1 bytes: status $status: $(head -c 300 "$work/err")"
    cmp -s <(head -n 5 "$work/out") "$work/wanted" || fail "$1 bytes: printed as $(head -n 5 "$work/out")"
    instructions
}

ready
compare bytes 262144 524288 1048576
