#!/usr/bin/env bash
# `rt ci` over every crate, with its log kept in target/ci.log. A must-fail edit that can't be tried fails here too, which `rt ci` lets pass. The last line is
# printed once more by `make test`, when everything else has passed too.
set -euo pipefail
cd "$(dirname "$0")/.."
mkdir -p target

rt ci 2>&1 | tee target/ci.log
if grep -qE '^rt: ok\b.*, [0-9]+ bad\b' target/ci.log; then
    echo "must-fail edits that could not be tried, as told above"
    exit 1
fi
