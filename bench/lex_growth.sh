#!/usr/bin/env bash
# Whether the lexer is linear: counts the instructions of the program `lex_count` on a quarter, a half and a whole MiB of the
# ledger script repeated, filled up by a comment, and prints the two ratios. Each is to be at most 2.2; else the status is 1.
#
#     bench/lex_growth.sh
#
# It wants valgrind, and the program that `rt run` in crates/lex_count builds; it is no part of `rt ci`. The program reads
# its script by the same calls at every size, so the counts are those of reading and lexing together.
source "$(dirname -- "${BASH_SOURCE[0]}")/counting.sh"

program=$root/crates/lex_count/out/lex_count

# The instructions of a script of so many bytes.
count() {
    repeated "$root/examples/ledger.py" "$1" >"$work/script.py"
    counted "$program" <"$work/script.py" || fail "$1 bytes: $(head -c 300 "$work/err")"
    grep -Eq '^[0-9]+ tokens$' "$work/out" || fail "$1 bytes: $(head -c 300 "$work/out")"
    instructions
}

command -v valgrind >/dev/null || fail "there is no valgrind"
[ -x "$program" ] || fail "the program wasn't built"
compare bytes 262144 524288 1048576
