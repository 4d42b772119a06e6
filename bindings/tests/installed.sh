#!/bin/sh
# What `make install` puts down is found: by pkg-config, by CMake's find_package with a version, by
# <gco/gco.h> and by <gco.h>.
# Usage: installed.sh PREFIX VERSION
set -e
prefix=$(cd "$1" && pwd) version=$2
folder=$(mktemp -d)
trap 'rm -rf "$folder"' EXIT
cat > "$folder/long.cpp" <<'PROGRAM'
#include <gco/GCoptimization.h>
#include <gco/energy.h>
#include <gco/gco.h>
#include <gco/graph.h>
int main() {
    GCoptimizationGridGraph gc(2, 2, 2);
    gc.setDataCost(0, 0, 5);
    Energy<int, int, long long> e(1, 0);
    e.add_term1(e.add_variable(), 3, 2);
    return gc.expansion() == 0 && e.minimize() == 2 ? 0 : 1;
}
PROGRAM
sed 's|<gco/|<|' "$folder/long.cpp" > "$folder/short.cpp"
if command -v pkg-config > /dev/null; then
    PKG_CONFIG_PATH=$prefix/lib/pkgconfig
    export PKG_CONFIG_PATH
    [ "$(pkg-config --modversion gco)" = "$version" ]
    for program in long short; do
        ${CXX:-c++} -std=c++11 "$folder/$program.cpp" $(pkg-config --cflags --libs gco) \
            -o "$folder/$program"
        LD_LIBRARY_PATH=$prefix/lib "$folder/$program"
        # the program asks for the library by a name with a number
        LC_ALL=C objdump -p "$folder/$program" | grep -q "NEEDED *libgco.so.${version%%.*}\$"
    done
    echo "installed: pkg-config, $version"
else
    echo "installed: pkg-config is missing, not tried (Debian: apt-get install pkg-config)"
fi
configured() {
    cmake -S "$folder" -B "$folder/$1" -DWANTED="$1" -DCMAKE_PREFIX_PATH="$prefix" \
        > "$folder/told" 2>&1
}
if command -v cmake > /dev/null; then
    cat > "$folder/CMakeLists.txt" <<'LISTS'
cmake_minimum_required(VERSION 3.10)
project(installed CXX)
set(CMAKE_CXX_STANDARD 11)
find_package(gco ${WANTED} REQUIRED)
foreach(program long short)
  add_executable(${program}_static ${program}.cpp)
  target_link_libraries(${program}_static gco::gco)
  add_executable(${program}_shared ${program}.cpp)
  target_link_libraries(${program}_shared gco::shared)
endforeach()
LISTS
    first=${version%%.*}
    for wanted in "$first" "$first.0" "$version"; do
        configured "$wanted" || { cat "$folder/told"; exit 1; }
    done
    cmake --build "$folder/$version" > "$folder/told" 2>&1 || { cat "$folder/told"; exit 1; }
    for program in long_static long_shared short_static short_shared; do
        "$folder/$version/$program"
    done
    older=$((first - 1)).9 later=$first.999 next=$((first + 1)).0
    for wanted in "$older" "$later" "$next"; do
        if configured "$wanted"; then
            echo "find_package(gco $wanted) is answered by $version"
            exit 1
        fi
        grep -q "version: $version" "$folder/told" || { cat "$folder/told"; exit 1; }
    done
    echo "installed: CMake, static and shared, for $first, $first.0 and $version," \
        "not for $older, $later or $next"
else
    echo "installed: cmake is missing, not tried (Debian: apt-get install cmake)"
fi
