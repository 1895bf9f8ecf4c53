# What the measures of this folder share; each sources it. It makes a scratch folder `work`, counts instructions with
# valgrind's callgrind, and compares two counts. A count is the same at each run, so a ratio says how the work grows.
set -euo pipefail

measure=$(basename -- "$0" .sh)
root=$(cd -- "$(dirname -- "${BASH_SOURCE[0]}")/.." && pwd -P)
work=$(mktemp -d)
trap 'rm -rf -- "$work"' EXIT
most=220    # the greatest ratio of two neighbours, in hundredths

fail() {
    echo "$measure: $1" >&2
    exit 1
}

# Builds the program where ./mono would.
built() {
    "$root/mono" step /dev/null || fail "the program wasn't built"
}

# Builds the program, and looks for valgrind.
ready() {
    command -v valgrind >/dev/null || fail "there is no valgrind"
    built
}

# Runs a program under callgrind, standard output to $work/out and standard error to $work/err, and ends with its status.
# What it wrote of its counts is for `instructions`.
counted() {
    valgrind --tool=callgrind --callgrind-out-file="$work/counts" --log-file="$work/log" "$@" >"$work/out" 2>"$work/err"
}

# The instructions of the run before.
instructions() {
    awk '/^(summary|totals):/ { n = $2 } END { print n }' "$work/counts"
}

# A file repeated as often as it goes into so many bytes, and filled up to them by a comment.
repeated() {
    local one times rest i
    one=$(wc -c <"$1")
    times=$(($2 / one))
    rest=$(($2 - times * one))
    for ((i = 0; i < times; i++)); do cat "$1"; done
    printf '%*s' "$rest" '' | tr ' ' '#'
}

# A ratio with two decimals, rounded up.
ratio() {
    local hundredths=$(((100 * $1 + $2 - 1) / $2))
    printf '%d.%02d' $((hundredths / 100)) $((hundredths % 100))
}

# Prints what `count` gives for three sizes of this unit, and the two ratios; fails where one is over the greatest.
compare() {
    local unit=$1 sizes=("${@:2}") counts=() at over=0
    for at in 0 1 2; do
        counts[at]=$(count "${sizes[at]}")
        printf '%7d %s: %15d instructions\n' "${sizes[at]}" "$unit" "${counts[at]}"
    done
    for at in 1 2; do
        echo "${sizes[at]} to ${sizes[at - 1]}: $(ratio "${counts[at]}" "${counts[at - 1]}")"
        [ $((100 * counts[at])) -le $((most * counts[at - 1])) ] || over=1
    done
    [ "$over" -eq 0 ] || fail "a ratio is over $(ratio "$most" 100)"
}

over=0    # whether a time was over its limit

# Runs the program on $work/script.py with this command, for a wanted status and a wanted first line of standard error, and prints
# the seconds that it took. Where they are over $limit milliseconds, `over` is 1.
timed() {
    local command=$1 what=$2 wanted=$3 line=$4 begun ended status=0
    begun=$(date +%s%N)
    "$root/crates/mono/out/mono" "$command" "$work/script.py" >"$work/out" 2>"$work/err" || status=$?
    ended=$(date +%s%N)
    local taken=$(((ended - begun) / 1000000))
    printf '%s: %d.%03d s\n' "$what" $((taken / 1000)) $((taken % 1000))
    [ "$status" -eq "$wanted" ] || fail "$what: status $status: $(head -c 300 "$work/err")"
    [ "$(head -n 1 "$work/err")" = "$line" ] || fail "$what: $(head -c 300 "$work/err")"
    [ "$taken" -lt "$limit" ] || over=1
}
