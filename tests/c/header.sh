#!/usr/bin/env bash
# header.sh LIBRARY FOLDER FLAG...: compiles header.c with the flags by gcc and by clang, as C99 to C17 and as C++11 to
# C++20, over the header, and runs it. A compiler that is not installed is passed over, which is said; one must be
# there.
set -euo pipefail
library=$1
program=$2/header
shift 2
cd "$(dirname "$0")/../.."
tried=0
try() {
    local compiler=$1 language=$2
    shift 2
    if ! command -v "$compiler" > /dev/null; then
        echo "the header is not tried with $compiler, which is not installed"
        return
    fi
    for standard in "${standards[@]}"; do
        if ! { "$compiler" -x "$language" "-std=$standard" "$@" -Iinclude tests/c/header.c -x none "$library" \
            -o "$program" && "$program"; }; then
            echo "the header fails with $compiler, $standard"
            exit 1
        fi
        tried=$((tried + 1))
    done
}
standards=(c99 c11 c17)
try gcc c "$@"
try clang c "$@"
standards=(c++11 c++14 c++17 c++20)
try g++ c++ "$@"
try clang++ c++ "$@"
[ "$tried" -gt 0 ]
echo "the header passes with $tried compilers and standards, without a warning"
