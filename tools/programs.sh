#!/usr/bin/env bash
# Proves the named programs and builds them, as target/bin/NAME.
#   bash tools/programs.sh NAME..
set -euo pipefail
cd "$(dirname "$0")/.."
mkdir -p target/bin
for name in "$@"; do
    # rt proves, builds and runs in one; with no input each of these programs ends at once
    (cd "crates/$name" && rm -f "out/$name" && { rt run < /dev/null > /dev/null || [ -x "out/$name" ]; })
    cp "crates/$name/out/$name" target/bin/
done
