#!/usr/bin/env bash
# Installs under $DESTDIR$PREFIX, for `make install`, which says what is installed. Both may have spaces, and a PREFIX that is relative counts from the root of the repository.
set -euo pipefail
cd "$(dirname "$0")/.."
PREFIX=$(realpath -ms -- "$PREFIX")
to=${DESTDIR-}$PREFIX

install -d -- "$to/include" "$to/lib/pkgconfig"
install -m 644 -- include/rapyheo.h "$to/include/rapyheo.h"
install -m 644 -- "$ARCHIVE" "$to/lib/librapyheo.a"
install -m 755 -- "$SHARED" "$to/lib/${SHARED##*/}"
ln -sf -- "${SHARED##*/}" "$to/lib/$SONAME"
ln -sf -- "$SONAME" "$to/lib/librapyheo.so"

text=$(< include/rapyheo.pc.in)
text=${text//@PREFIX@/"$PREFIX"}
text=${text//@VERSION@/"$VERSION"}
printf '%s\n' "$text" | install -m 644 -- /dev/stdin "$to/lib/pkgconfig/rapyheo.pc"
echo "installed $VERSION under $to"
