#!/bin/sh
# The headers give no warning: each standard from C++11 to C++23, g++ and clang++ where they are, as
# a program's own headers and as a system's. Usage: warnings.sh FOLDER_OF_THE_HEADERS
set -e
tests=$(dirname "$0")
warnings="-Wall -Wextra -Wshadow -Wconversion -Wpedantic -Werror"
for compiler in g++ clang++; do
    if ! command -v $compiler > /dev/null; then
        echo "warnings: $compiler is missing, not tried"
        continue
    fi
    for build in "c++11 -I" "c++14 -I" "c++17 -I" "c++20 -I" "c++2b -I" \
        "c++11 -isystem" "c++2b -isystem"; do
        $compiler -std=${build% *} $warnings ${build#* } "$1" -fsyntax-only "$tests/warnings.cpp"
    done
    echo "warnings: none of $compiler, C++11 to C++23"
done
