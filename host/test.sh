#!/usr/bin/env bash
# The tests of host/: the C example, and the Rust crate with its differential test, of 20,000 cases unless MAZHORUKKU_CASES says
# otherwise.
set -euo pipefail
cd "$(dirname "$0")/.."
build=$(mktemp -d)
trap 'rm -rf "$build"' EXIT

if ! bash host/archives.sh export > "$build/log" 2>&1; then
    cat "$build/log"
    exit 1
fi
tail -n 1 "$build/log"
"${CC:-cc}" -std=c99 -Wall -Wextra -pedantic -Werror -O2 -Ihost/include host/example.c target/staticlib/libexport.a -o "$build/example"
answer=$("$build/example")
if [ "$answer" != passed ]; then
    echo "host/example.c says: $answer"
    exit 1
fi
cargo test --release --offline --manifest-path host/mazhorukku/Cargo.toml
