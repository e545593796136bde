#!/usr/bin/env bash
# selftest.sh SELFTEST: the comparison passes on the reference itself, and finds each mistake of faulty.c.
set -euo pipefail
selftest=$1
last=$(grep -o 'fault() == [0-9]*' "$(dirname "$0")/faulty.c" | awk '$3 > most { most = $3 } END { print most }')
FAULT=0 "$selftest" -n 100000 -s 1 > /dev/null || { echo "the comparison fails with no mistake"; exit 1; }
for fault in $(seq 1 "$last"); do
    if FAULT=$fault "$selftest" -n 400000 -s 1 > /dev/null 2>&1; then
        echo "the comparison does not find mistake $fault"
        exit 1
    fi
done
echo "the comparison finds each of $last mistakes"
