#!/bin/sh
# Each program of tests/refused has to be refused by the compiler with the message of its first
# line. Usage: must_not_compile.sh INCLUDE_OPTIONS..
: "${CXX:=c++}"
folder=$(dirname "$0")/refused
count=0
for program in "$folder"/*.cpp; do
    message=$(sed -n '1s|^// message: ||p' "$program")
    [ -n "$message" ] || { echo "$program: no message"; exit 1; }
    if told=$($CXX -std=c++11 -fsyntax-only "$@" "$program" 2>&1); then
        echo "$program: compiles"
        exit 1
    fi
    # a compiler may break a line where two parts of a string meet
    if ! printf '%s' "$told" | tr -d '\n' | grep -qF "$message"; then
        printf '%s\n%s: another message\n' "$told" "$program"
        exit 1
    fi
    count=$((count + 1))
done
[ "$count" -gt 0 ] || { echo "$folder: no program"; exit 1; }
echo "c++: $count programs refused with their messages ($CXX $*)"
