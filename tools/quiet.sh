#!/usr/bin/env bash
# Runs a command and keeps what it prints in target/NAME.log: one line tells how it went, and where it failed the log's end goes before that.
# tools/quiet.sh NAME COMMAND..
set -uo pipefail
cd "$(dirname "$0")/.." || exit
name=$1
log=target/$name.log
shift
mkdir -p target
if "$@" > "$log" 2>&1; then
    echo "$name: built in $SECONDS s ($log)"
else
    status=$?
    tail -n 40 "$log"
    echo "$name: failed after $SECONDS s ($log)"
    exit "$status"
fi
