#!/usr/bin/env bash
# bench.sh BENCH [LIST_TIMES]: prints docs/BENCHMARKS.md. Instructions are counted where valgrind is installed, and the
# program is timed on 100 MB where it is there.
set -euo pipefail
bench=$1
list_times=${2:-}
processor=$(sed -n 's/^model name[[:space:]]*: //p' /proc/cpuinfo | head -1)

# The instructions inside the function that a row calls, over so many rounds.
collected() {
    valgrind --tool=callgrind --callgrind-out-file=/dev/null --toggle-collect="$1" "$bench" -c "$2" "$3" "$4" 2>&1 \
        > /dev/null | sed -n 's/.*Collected : //p'
}

# Those of one unit of a row by one side. What it takes to make the inputs is in a run of no rounds.
instructions() {
    local called units all none
    read -r called units < <("$bench" -c "$1" "$2" 4)
    all=$(collected "$called" "$1" "$2" 4)
    none=$(collected "$called" "$1" "$2" 0)
    awk -v all="$all" -v none="${none:-0}" -v units="$units" 'BEGIN { printf "%.1f", (all - none) / units }'
}

# Two numbers and their ratio as cells of the table.
pair() {
    awk -v a="$1" -v b="$2" 'function short(x) { return sprintf(x < 10 ? "%.2f" : x < 1000 ? "%.1f" : "%d", x) }
        BEGIN { printf "%s | %s | %.2f", short(a), short(b), a / b }'
}

# Seconds of the best of three runs, with the file as input.
best() {
    local out=$1 start end
    shift
    for _ in 1 2 3; do
        start=$(date +%s%N)
        "$@" < "$work/capture" > "$out"
        end=$(date +%s%N)
        echo $((end - start))
    done | sort -n | head -1 | awk '{ printf "%.2f", $1 / 1e9 }'
}

cat << END
# Benchmarks

Measured on $processor; plain C by $("${CC:-cc}" --version | head -1) at -O2.
\`make bench\` prints this page.

The library and a plain C implementation of the same rules ([bench_plain.c](../tests/c/bench_plain.c)) run in one
process on the same varied valid inputs and take turns; a time is the best of 400 rounds. Instructions are those inside
the function, by callgrind, and come out the same each time: they are the measure. Times differ by some percent from run
to run, so that a ratio of times near 1 falls on either side of it. A ratio is that of the library to plain C. Plain C is
written for speed: it decides on signs and flags without branches, takes eight marks of a minute and eight bytes of a
Trimble string at once, and keeps runs of the feed at once.

| call | library, ns | plain C, ns | ratio | library, instructions | plain C, instructions | ratio |
|---|---:|---:|---:|---:|---:|---:|
END
"$bench" | while IFS=$'\t' read -r name library plain; do
    counts=" | | "
    if command -v valgrind > /dev/null; then
        ours=$(instructions "$name" library)
        theirs=$(instructions "$name" plain)
        counts=$(pair "$ours" "$theirs")
    fi
    echo "| $name | $(pair "$library" "$plain") | $counts |"
done
if [ -x "$list_times" ]; then
    work=$(mktemp -d)
    trap 'rm -rf "$work"' EXIT
    "$bench" -g 100000000 > "$work/capture"
    cat << END

100 MB of valid strings, seconds of the best of three runs:

| program | to /dev/null | to a file |
|---|---:|---:|
| list_times | $(best /dev/null "$list_times") | $(best "$work/out" "$list_times") |
| cat | $(best /dev/null cat) | $(best "$work/out" cat) |
END
fi
