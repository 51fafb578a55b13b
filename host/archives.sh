#!/usr/bin/env bash
# Proves the C functions of the named crates, or of export and timing, and writes their archives, target/staticlib/libNAME.a.
#   bash host/archives.sh [export|timing]..
# The C functions of NAME are in the crate NAME_c: each calls the function of its name in NAME, and promises the same. They are compiled
# for any x86-64, which is not what rt compiles for unless told.
set -euo pipefail
cd "$(dirname "$0")/.."
if [ $# = 0 ]; then
    set -- export timing
fi
mkdir -p target/staticlib
for name in "$@"; do
    (cd "crates/${name}_c" && rt lib --cpu=x86-64)
    cp "crates/${name}_c/out/lib${name}_c.a" "target/staticlib/lib$name.a"
done
