#!/bin/bash
# Builds the benchmark and runs it on the circuits of circuits.txt, or on those that are named. Status 1: an answer differs.
#   bash host/bench/run.sh [CIRCUIT..]
# MAZHORUKKU_LIB: the folder of libexport.a and libtiming.a, else target/staticlib; CC: gcc (or clang); ROUNDS: 300; SEED: 7.
set -euo pipefail
here=$(cd "$(dirname "$0")" && pwd)
lib=${MAZHORUKKU_LIB:-$here/../../target/staticlib}
cc=${CC:-gcc}
build=$(mktemp -d)
trap 'rm -rf "$build"' EXIT

for archive in export timing; do
    if [ ! -f "$lib/lib$archive.a" ]; then
        echo "no $lib/lib$archive.a: make it with 'bash host/archives.sh $archive', or set MAZHORUKKU_LIB" >&2
        exit 2
    fi
done

# Most nets have few frames, and loops for vectors are slower on them than plain ones: so the tuned C is built without.
native="-O3 -march=native"
tuned="$native -fno-tree-vectorize"
generic="-O3 -fno-tree-vectorize"
warn="-std=gnu11 -Wall -Wextra"
"$cc" $warn $native -DFLAGS="\"$native\"" -c "$here/plain.c" -o "$build/plain.o"
"$cc" $warn $tuned -DENGINE=tuned -DNAME='"tuned C"' -DFLAGS="\"$tuned\"" -c "$here/packed.c" -o "$build/tuned.o"
"$cc" $warn $generic -DENGINE=tuned_generic -DNAME='"generic tuned C"' -DFLAGS="\"$generic\"" -c "$here/packed.c" \
    -o "$build/generic.o"
"$cc" $warn $tuned -c "$here/wheel.c" -o "$build/wheel.o"
"$cc" $warn -O2 -DCOMPILER="\"$(basename "$cc")\"" "$here"/{bench,compare,proved}.c "$build"/{plain,tuned,generic,wheel}.o \
    "$lib/libexport.a" "$lib/libtiming.a" -lm -o "$build/bench"

circuits=("$@")
if [ $# -eq 0 ]; then
    mapfile -t circuits < <(sed -n "s|^\([^ #]\+\) .*|$here/circuits/\1.circuit|p" "$here/circuits.txt")
fi
"$build/bench" "${circuits[@]}"
