#!/usr/bin/env bash
# build.sh [LIB [OUT]]: builds the extension rstore_sqlite.so of SQLite into OUT (LIB where it is left out) over LIB, a
# folder that library/build.sh has made (library/lib where it is left out). It proves nothing. Wants a C compiler and
# sqlite3ext.h (Debian: gcc, libsqlite3-dev). CC names another compiler, CFLAGS more flags, as -fsanitize=address.
set -eu
here="$(cd "$(dirname "$0")" && pwd)"
lib="${1:-$(dirname "$here")/lib}"
out="${2:-$lib}"
[ -f "$lib/librstore.a" ] || {
  echo "build.sh: there is no library in $lib: library/build.sh makes it, and proves before what is not proved" >&2
  exit 1
}
echo '#include <sqlite3ext.h>' | ${CC:-cc} -x c -fsyntax-only - 2>/dev/null || {
  echo "build.sh: missing: sqlite3ext.h (Debian: libsqlite3-dev)" >&2
  exit 1
}
map="$(mktemp)"
trap 'rm -f "$map"' EXIT
echo '{ global: sqlite3_rstoresqlite_init; local: *; };' >"$map"
mkdir -p "$out"
${CC:-cc} -std=c11 -O2 -Wall -Wextra -fPIC -shared ${CFLAGS:-} -I"$lib" \
  "$here"/{table,store,held,files,changes,questions,joins,functions}.c "$lib/librstore.a" -lm \
  -Wl,--version-script="$map" -Wl,--gc-sections -Wl,-z,defs -o "$out/rstore_sqlite.so"
ls -l "$out/rstore_sqlite.so" >&2
