#!/usr/bin/env bash
# Proves and builds programs, and lays each in target/bin: tools/programs.sh NAME..
set -euo pipefail
cd "$(dirname "$0")/.."
mkdir -p target/bin
for name in "$@"; do
    # there is no command that builds alone: it is run once, on no input
    (cd "crates/$name" && rt run < /dev/null > /dev/null)
    cp "crates/$name/out/$name" "target/bin/$name"
done
