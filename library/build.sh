#!/usr/bin/env bash
# build.sh [OUT]: builds the C library and the Python module into OUT (default library/lib): librstore.a, librstore.so.0
# with the link librstore.so, rstore.h, the package rstore and rstore_rtree.py. What its proved part is made of is proved
# first, where that is not done yet: after ./rstore four crates. CC names another compiler, JOBS how many processors are
# used, CPU the processor that its proved part is compiled for (x86-64-v2 or x86-64-v3; CFLAGS are for the rest).
set -eu
here="$(cd "$(dirname "$0")" && pwd)"
crates="$here/../crates"
out="${1:-$here/lib}"
missing=""
for tool in rt python3 ar objcopy "${CC:-cc}"; do
  command -v "$tool" >/dev/null || missing="$missing $tool"
done
if [ -n "$missing" ]; then
  echo "build.sh: missing:$missing (Debian: gcc, binutils, python3; rt is the Rattle kit's)" >&2
  exit 1
fi
kit="$(dirname "$(rt doc)")"
built="$crates/rstore_c/out/librstore_c.a"

"$here/../tools/build" ${JOBS:+--jobs "$JOBS"} ${CPU:+--cpu "$CPU"} rstore_c >&2
work="$(mktemp -d)"
trap 'rm -rf "$work"' EXIT
# The proved code has its files by streams: its read(0) and write(1) get the names of rstore.c's functions, in that one
# object. The kit's C functions that it calls (malloc, errno) come with it.
mkdir "$work/proved" "$work/kit"
(cd "$work/proved" && ar x "$built")
objcopy --redefine-sym read=rstore_stream_read --redefine-sym write=rstore_stream_write "$work/proved/rstore_c.o"
(cd "$work/kit" && ar x "$kit/c/libos_c.a" && ar x "$kit/c/liblibc_c.a")
python3 "$here/exports.py" "$crates" >"$work/rstore_c.h"
${CC:-cc} -std=c11 -O2 -Wall -Wextra -fPIC -I"$here" -I"$work" ${CFLAGS:-} -c "$here/rstore.c" -o "$work/rstore.o"
# Only what rstore.h declares is seen of the shared library.
{
  echo '{ global:'
  sed -n 's/^[a-z].*[ *]\(rstore_[a-z_]*\)(.*/\1;/p' "$here/rstore.h"
  echo 'local: *; };'
} >"$work/exports.map"
mkdir -p "$out"
rm -f "$out/librstore.a" "$out"/librstore.so*
ar rcs "$out/librstore.a" "$work/rstore.o" "$work"/proved/*.o "$work"/kit/*.o
${CC:-cc} -shared -o "$out/librstore.so.0" -Wl,--version-script="$work/exports.map" -Wl,--gc-sections \
  -Wl,-soname,librstore.so.0 ${CFLAGS:-} "$work/rstore.o" "$work"/proved/*.o "$kit/c/libos_c.a" "$kit/c/liblibc_c.a"
ln -s librstore.so.0 "$out/librstore.so"
cp "$here/rstore.h" "$out/"
mkdir -p "$out/rstore"
cp "$here"/rstore/*.py "$here/rstore/py.typed" "$out/rstore/"
cp "$here/rstore_rtree.py" "$out/"
ls -l "$out" >&2
