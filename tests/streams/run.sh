#!/usr/bin/env bash
# What the programs tell where standard input can't be read, or fails midway, or standard output can't be written: they give no exit status.
set -uo pipefail
cd "$(dirname "$0")/../.."

work=$(mktemp -d)
trap 'rm -rf "$work"' EXIT
runs=0
differences=0

# what is printed, and what is told, with repeated lines once
expect() {
    runs=$((runs + 1))
    if [ "$(cat "$work/out")" != "$1" ] || [ "$(uniq "$work/told")" != "$2" ]; then
        differences=$((differences + 1))
        echo "streams: run $runs printed '$(head -c 80 "$work/out")' and told '$(uniq "$work/told")'"
    fi
}

unread='standard input could not be read'
unwritten='standard output could not be written'

for program in visitor replay; do
    [ "$program" = visitor ] && refused='REFUSED  1' || refused='bad input'
    [ "$program" = visitor ] && input=examples/visit.txt || input=examples/histories/two_orders.txt

    "target/bin/$program" <&- > "$work/out" 2> "$work/told"
    expect "$refused" "$unread"

    "target/bin/$program" < tests > "$work/out" 2> "$work/told"
    expect "$refused" "$unread"

    : > "$work/out"
    "target/bin/$program" < "$input" > /dev/full 2> "$work/told"
    expect '' "$unwritten"

    "target/bin/$program" < "$input" > "$work/plain" 2> "$work/told"
    cp "$work/plain" "$work/out"
    expect "$(cat "$work/plain")" ''
done

echo "streams: $runs runs, $differences differences"
[ "$differences" -eq 0 ]
