#!/usr/bin/env bash
# Proves and builds the library for C, and lays it in target/staticlib.
set -euo pipefail
cd "$(dirname "$0")/.."
mkdir -p target/staticlib
(cd crates/c_api && rt lib)
cp crates/c_api/out/libc_api.a target/staticlib/libc_api.a
