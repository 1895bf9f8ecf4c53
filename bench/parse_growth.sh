#!/usr/bin/env bash
# Whether the way from a script's bytes to its tree is linear: counts the instructions of `mono step` on a quarter, a half
# and a whole MiB of the ledger script repeated, filled up by a comment, and prints the two ratios. Each is to be at most
# 2.2; else the status is 1.
#
#     bench/parse_growth.sh
#
# It wants valgrind, builds the program first where ./mono would, and takes some minutes. It is no part of `rt ci`.
#
# The ledger script has functions, which the program doesn't run yet: it parses such a script to its end and then refuses
# it as not built. So what is counted is reading the file, decoding, cutting into tokens, parsing, and the look for forms
# that aren't built, which ends at the first function. Once functions run, the refusal is that of a name defined twice.
source "$(dirname -- "${BASH_SOURCE[0]}")/counting.sh"

wanted='refused 1:1: not built yet'

# The instructions of a script of so many bytes.
count() {
    local status=0
    repeated "$root/examples/ledger.py" "$1" >"$work/script.py"
    [ "$(wc -c <"$work/script.py")" -eq "$1" ] || fail "the script hasn't $1 bytes"
    counted "$root/crates/mono/out/mono" step "$work/script.py" || status=$?
    [ "$status" -eq 1 ] && [ "$(cat "$work/err")" = "$wanted" ] && [ ! -s "$work/out" ] ||
        fail "$1 bytes: status $status, and not 1 with '$wanted': $(head -c 300 "$work/err")"
    instructions
}

ready
compare bytes 262144 524288 1048576
