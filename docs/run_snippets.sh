#!/usr/bin/env bash
# Whether the documents tell the truth: runs each script that README.md and docs/LANGUAGE.md show with `mono step`, and
# compares its standard output, standard error and status with the block that stands behind it. Prints a line for each
# document; the status is 1 where an answer differs.
#
#     docs/run_snippets.sh
#
# It builds the program first where ./mono would. It is no part of `rt ci`.
set -euo pipefail

root=$(cd -- "$(dirname -- "${BASH_SOURCE[0]}")/.." && pwd -P)
work=$(mktemp -d)
trap 'rm -rf -- "$work"' EXIT

# Writes script N of a document to N.py, and what stands behind it to N.wanted.
cut_out() {
    awk -v folder="$work" '
        /^```python$/ { n++; to = folder "/" n ".py"; next }
        /^```text$/ && n > shown { shown = n; to = folder "/" n ".wanted"; next }
        /^```/ { to = ""; next }
        to != "" { print >to }
    ' "$1"
}

# What a document would show behind a script.
answer() {
    local status=0
    "$root/mono" step "$1" 2>"$work/err" || status=$?
    cat "$work/err"
    echo "[status $status]"
}

"$root/mono" step /dev/null || { echo "run_snippets: the program wasn't built" >&2 && exit 1; }
differ=0
for document in README.md docs/LANGUAGE.md; do
    rm -f "$work"/*
    cut_out "$root/$document"
    count=0
    for script in "$work"/*.py; do
        count=$((count + 1))
        if ! diff "${script%.py}.wanted" <(answer "$script") >"$work/diff"; then
            differ=1
            echo "$document shows another answer (<) than the program gives (>) to this script:"
            cat "$script" "$work/diff"
        fi
    done
    echo "$document: scripts run: $count"
done
exit "$differ"
