#!/usr/bin/env bash
# The C side. The header alone in C and C++, and that an answer which nobody looks at is warned of; the client of examples/ in C, as C++, under the address and undefined
# behaviour sanitizers, under valgrind, with the shared library, and from installed copies found by pkg-config; the clients in Python and Rust; each output held to
# examples/client.out. The saddler's client on two sheets, held to examples/saddler.out. Then the edges that the clients don't meet, the client that is killed, and what the archive
# holds and asks for.
set -euo pipefail
cd "$(dirname "$0")/../.."

# a folder's name with a space, here and in what is installed
work=$(mktemp -d "${TMPDIR:-/tmp}/c client.XXXXXX")
installed="target/an installed copy"
trap 'rm -rf "$work" "$installed"' EXIT
strict=(-Wall -Wextra -Werror -pedantic)
c=(gcc -std=c11 "${strict[@]}")
cpp=(g++ -std=c++17 "${strict[@]}")
archive=target/staticlib/libc_api.a
outputs=0
differences=0

quietly() { "$@" > "$work/log" 2>&1 || { tail -n 40 "$work/log"; exit 1; }; }

# what a command prints is a stored output, examples/client.out unless it is named
held_to() {
    outputs=$((outputs + 1))
    if ! "${@:2}" > "$work/out" || ! diff "$1" "$work/out"; then
        differences=$((differences + 1))
        echo "differs: ${*:2}"
    fi
}
compare() { held_to examples/client.out "$@"; }

# a command that tells by its exit status and its last line how it went
hold() {
    outputs=$((outputs + 1))
    "$@" || { differences=$((differences + 1)); echo "failed: $*"; }
}

quietly make --no-print-directory archive shared

echo '#include "rapyheo.h"' > "$work/header.c"
printf '#include "rapyheo.h"\nvoid unused(uint8_t *sheet) { rapyheo_check(sheet, 0, sheet, 0); }\n' > "$work/unused.c"
for compiler in gcc:g++ clang:clang++; do
    type -t "${compiler%:*}" "${compiler#*:}" > "$work/log" || { echo "no ${compiler%:*}: the header is not tried by it"; continue; }
    "${compiler%:*}" -std=c11 "${strict[@]}" -Iinclude -fsyntax-only "$work/header.c"
    "${compiler#*:}" -std=c++17 "${strict[@]}" -Iinclude -fsyntax-only -x c++ "$work/header.c"
    for try in "${compiler%:*} -std=c11" "${compiler#*:} -std=c++17 -x c++"; do
        # shellcheck disable=SC2086
        if $try -Werror -Iinclude -c -o "$work/unused.o" "$work/unused.c" 2> "$work/log"; then
            echo "no warning of an unused answer: $try"
            differences=$((differences + 1))
        fi
    done
done

"${c[@]}" -Iinclude -o "$work/client" examples/client.c $archive
compare "$work/client"

"${cpp[@]}" -Iinclude -o "$work/client++" -x c++ examples/client.c -x none $archive
compare "$work/client++"

"${c[@]}" -g -fsanitize=address,undefined -fno-sanitize-recover=all -Iinclude -o "$work/sanitized" examples/client.c $archive
compare "$work/sanitized"

if type -t valgrind > "$work/log"; then
    compare valgrind --quiet --error-exitcode=9 --leak-check=full "$work/client"
else
    echo "no valgrind: the client does not run under it"
fi

"${c[@]}" -Iinclude -o "$work/shared" examples/client.c -Ltarget/shared -lrapyheo
compare env LD_LIBRARY_PATH=target/shared "$work/shared"

# installed under a relative PREFIX with a space, and used from another folder
quietly make --no-print-directory install PREFIX="$installed"
export PKG_CONFIG_PATH="$PWD/$installed/lib/pkgconfig"
flags=()
eval "flags=($(pkg-config --cflags --libs rapyheo))"
(cp examples/client.c "$work" && cd "$work" && "${c[@]}" -o linked client.c "${flags[@]}")
compare env LD_LIBRARY_PATH="$(pkg-config --variable=libdir rapyheo)" "$work/linked"
eval "flags=($(pkg-config --cflags rapyheo))"
"${c[@]}" -o "$work/linked" "${flags[@]}" examples/client.c "$(pkg-config --variable=archive rapyheo)"
compare "$work/linked"

# DESTDIR goes before the PREFIX and is not named in what is installed
quietly make --no-print-directory install PREFIX=/opt/rapyheo DESTDIR="$work/stage"
hold grep -q '^prefix=/opt/rapyheo$' "$work/stage/opt/rapyheo/lib/pkgconfig/rapyheo.pc"
hold test -f "$work/stage/opt/rapyheo/lib/librapyheo.so" -a -f "$work/stage/opt/rapyheo/lib/librapyheo.a" -a -f "$work/stage/opt/rapyheo/include/rapyheo.h"

compare python3 examples/client.py target/shared/librapyheo.so

rustc --edition 2021 -D warnings -L target/staticlib -l static=c_api -o "$work/client_rs" examples/client.rs
compare "$work/client_rs"

"${c[@]}" -fsanitize=address,undefined -fno-sanitize-recover=all -Iinclude -o "$work/saddler" examples/saddler.c $archive
held_to examples/saddler.out "$work/saddler"
"${cpp[@]}" -Iinclude -o "$work/saddler++" -x c++ examples/saddler.c -x none $archive
held_to examples/saddler.out "$work/saddler++"

for edges in edges two_edges; do
    "${c[@]}" -fsanitize=address,undefined -fno-sanitize-recover=all -Iinclude -o "$work/edges" tests/c_client/$edges.c $archive
    hold "$work/edges"
    "${cpp[@]}" -Iinclude -o "$work/edges++" -x c++ tests/c_client/$edges.c -x none $archive
    hold "$work/edges++"
done

"${c[@]}" -Iinclude -o "$work/killed" tests/c_client/killed.c $archive
hold "$work/killed" "$work/sheets"

# no data, and nothing asked of others but these two (README, "For the supplier who links it from C")
hold test "$(nm -u $archive | awk '/ U / { print $2 }' | sort -u | paste -s -d ' ')" = "memcpy memset"
hold test "$(size $archive | awk 'NR > 1 { bytes += $2 + $3 } END { print bytes }')" = 0

"${c[@]}" -O2 -Iinclude -o "$work/stack" tests/c_client/stack.c $archive
hold "$work/stack" > "$work/log"
tail -n 1 "$work/log"

echo "C client: $outputs outputs, $differences differences"
[ "$differences" -eq 0 ]
