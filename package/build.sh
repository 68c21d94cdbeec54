#!/usr/bin/env bash
# build.sh [OUT]: makes the packages of the last commit in OUT (default package/out), without a network: Debian packages
# of the program, the library, its header, its Python and the extension of SQLite, a wheel for pip, and a tar of all of
# it. What is not proved and built yet is first. Two calls at one commit make the same bytes. JOBS says how many
# processors are used, WITHOUT what is left out where its tools are not to be had: sqlite, wheel.
set -eu
here=$(cd "$(dirname "$0")" && pwd)
top=$(cd "$here/.." && pwd)
out=$(mkdir -p "${1:-$here/out}" && cd "${1:-$here/out}" && pwd)
wants() { [[ " ${WITHOUT:-} " != *" $1 "* ]]; }
python=/usr/bin/python3 # Debian's, which has what makes a wheel
[ -x "$python" ] || python=python3
missing=""
for tool in rt git "$python" "${CC:-cc}" ar objcopy strip objdump dpkg-deb gzip xz tar; do
    command -v "$tool" >/dev/null || missing="$missing $tool"
done
! wants wheel || "$python" -c 'import setuptools, wheel' 2>/dev/null || missing="$missing setuptools wheel"
! wants sqlite || echo '#include <sqlite3ext.h>' | ${CC:-cc} -x c -fsyntax-only - 2>/dev/null ||
    missing="$missing sqlite3ext.h"
if [ -n "$missing" ]; then
    echo "build.sh: missing:$missing (Debian: gcc, binutils, dpkg, git, xz-utils, python3-setuptools, python3-wheel," \
        "libsqlite3-dev; rt is the Rattle kit's)" >&2
    exit 1
fi
umask 022
export LC_ALL=C TZ=UTC PYTHONDONTWRITEBYTECODE=1
number=$(sed -n 's/^#define RSTORE_VERSION "\(.*\)"/\1/p' "$top/library/rstore.h")
commit=$(git -C "$top" rev-parse HEAD)
SOURCE_DATE_EPOCH=$(git -C "$top" log -1 --format=%ct)
export SOURCE_DATE_EPOCH
# A later commit has a greater version; files that are changed since it are told.
changed=$([ -z "$(git -C "$top" status --porcelain -uno)" ] || echo changed)
version="$number+$(date -u -d "@$SOURCE_DATE_EPOCH" +%Y%m%d%H%M%S).g${commit:0:10}${changed:+.$changed}"
maintainer="Yilgazan maintainers <maintainers@users.noreply.yilgazan.example>"
triplet=x86_64-linux-gnu libdir=usr/lib/x86_64-linux-gnu
work=$(mktemp -d)
trap 'rm -rf "$work"' EXIT
rm -f "$out"/{,lib,python3-,sqlite3-}rstore*.deb "$out"/rstore-*.{whl,tar.xz}

# The program, the library and the extension for a processor ($1), in $work/$1: the proofs are those of the checkout,
# and only the two crates that are compiled for it are copied, with what was proved of them, from $2.
build_for() {
    local to=$work/$1 it
    mkdir -p "$to/crates"
    for it in "$top"/crates/*; do
        case ${it##*/} in
        rstore | rstore_c) cp -a "$2/crates/${it##*/}" "$to/crates/" ;;
        *) ln -s "$it" "$to/crates/" ;;
        esac
    done
    cp -a "$top/crates.txt" "$top/tools" "$to/"
    mkdir "$to/library"
    (cd "$top/library" && cp -a build.sh exports.py rstore rstore.c rstore_files.h rstore.h rstore_rtree.py "$to/library/")
    "$to/tools/build" ${JOBS:+--jobs "$JOBS"} --cpu "$1" rstore rstore_c
    CPU=$1 CFLAGS="-march=$1 -ffile-prefix-map=$to=." "$to/library/build.sh" "$to/lib"
    ! wants sqlite || CFLAGS="-march=$1 -ffile-prefix-map=$top=." "$top/library/sqlite/build.sh" "$to/lib"
    strip --strip-unneeded -o "$to/rstore" "$to/crates/rstore/out/rstore"
    for it in "$to"/lib/{librstore.so.0,rstore_sqlite.so}; do
        [ ! -f "$it" ] || strip --strip-unneeded "$it"
    done
}

# Installs a file ($1) as $2/$3 with the rights $4.
put() { install -D -m "${4:-644}" "$1" "$2/$3"; }

# A page of text ($1), compressed, as $2/$3.
put_gz() {
    mkdir -p "$(dirname "$2/$3")"
    gzip -9nc "$1" >"$2/$3.gz"
}

# A library ($1) in the folder $2, with the build for newer processors where the loader looks for it.
put_library() {
    put "$v2/lib/$1" "$2" "$1"
    put "$v3/lib/$1" "$2" "glibc-hwcaps/x86-64-v3/$1"
}

# The package of Python in the folder $1.
put_python() {
    mkdir -p "$1"
    cp -r "$v2/lib/rstore" "$v2/lib/rstore_rtree.py" "$1/"
}

# The program's examples below $1.
put_examples() {
    local it
    for it in first.txt first.out coast.py; do
        put "$top/examples/$it" "$1" "examples/$it"
    done
    put "$top/examples/coast.sh" "$1" examples/coast.sh 755
}

# What pkg-config is told of a library below $1 in $2, as $3.
put_pc() {
    mkdir -p "$(dirname "$3")"
    sed -e "s#@PREFIX@#$1#" -e "s#@LIBDIR@#$2#" -e "s/@NUMBER@/$number/" "$here/rstore.pc" >"$3"
}

# What is below $1 gets the time of the commit.
touch_all() { find "$1" -exec touch -h -d "@$SOURCE_DATE_EPOCH" {} +; }

# The version of libc that what is below $1 wants.
libc_of() {
    find "$1" -type f \( -name '*.so*' -o -path '*/bin/*' \) -exec objdump -T {} + 2>/dev/null |
        grep -o 'GLIBC_[0-9.]*' | sed 's/GLIBC_//' | sort -Vu | tail -1
}

# The Debian package whose files stand in $work/$1.
package() {
    local tree=$work/$1 it of=amd64
    put_gz "$work/changelog" "$tree" "usr/share/doc/$1/changelog.Debian"
    put "$here/copyright" "$tree" "usr/share/doc/$1/copyright"
    put "$work/proved.txt" "$tree" "usr/share/doc/$1/PROVED"
    mkdir -p "$tree/DEBIAN"
    ! grep -q '^Architecture: all$' "$here/debian/$1" || of=all
    {
        head -1 "$here/debian/$1"
        echo "Version: $version"
        [ "$of" = all ] || echo "Architecture: $of"
        echo "Maintainer: $maintainer"
        echo "Priority: optional"
        echo "Installed-Size: $(find "$tree/usr" -type f -printf '%s\n' |
            awk '{ n += int(($1 + 1023) / 1024) } END { print n }')"
        sed -e 1d -e "s/@VERSION@/$version/" -e "s/@LIBC@/$(libc_of "$tree")/" "$here/debian/$1"
    } >"$tree/DEBIAN/control"
    for it in postinst prerm; do
        [ ! -f "$here/debian/$1.$it" ] || put "$here/debian/$1.$it" "$tree" "DEBIAN/$it" 755
    done
    (cd "$tree" && find usr -type f | sort | xargs md5sum >DEBIAN/md5sums)
    touch_all "$tree"
    dpkg-deb -Zxz --root-owner-group --build "$tree" "$out/$1_${version}_$of.deb" >/dev/null
}

# What these two stand on is proved in the checkout, where that is not done.
below=$(for it in $(sed -n 's/^rstore\(_c staticlib\)\?: //p' "$top/crates.txt"); do
    [ ! -d "$top/crates/$it" ] || echo "$it"
done)
"$top/tools/build" ${JOBS:+--jobs "$JOBS"} $below
v2=$work/x86-64-v2 v3=$work/x86-64-v3
build_for x86-64-v2 "$top"
build_for x86-64-v3 "$v2"
{
    echo "commit $commit${changed:+, and what was changed since}"
    "$python" "$here/proved.py" "$work" x86-64-v2 x86-64-v3
} >"$work/proved.txt"
printf 'rstore (%s) unstable; urgency=low\n\n  * Built from commit %s.\n\n -- %s  %s\n' "$version" "$commit" \
    "$maintainer" "$(date -R -u -d "@$SOURCE_DATE_EPOCH")" >"$work/changelog"
"$python" "$here/man.py" "$work" "$number" "$(date -u -d "@$SOURCE_DATE_EPOCH" +%Y-%m-%d)"

doc=usr/share/doc
put "$v2/rstore" "$work/rstore" usr/bin/rstore 755
put_gz "$work/rstore.1" "$work/rstore" usr/share/man/man1/rstore.1
put "$here/completion.bash" "$work/rstore" usr/share/bash-completion/completions/rstore
for it in COMMANDS.md FORMAT.md STOPS.md PROOFS.md REGISTER.md RULES.md britain.svg growth.svg waters.svg; do
    put "$top/docs/$it" "$work/rstore" "$doc/rstore/$it"
done
sed 's#](docs/#](#g' "$top/README.md" >"$work/rstore/$doc/rstore/README.md"
put_examples "$work/rstore/$doc/rstore"
package rstore

put_library librstore.so.0 "$work/librstore0/$libdir"
mkdir -p "$work/librstore0/DEBIAN"
echo "librstore 0 librstore0 (>= $version)" >"$work/librstore0/DEBIAN/shlibs"
echo "activate-noawait ldconfig" >"$work/librstore0/DEBIAN/triggers"
package librstore0

put "$v2/lib/rstore.h" "$work/librstore-dev" usr/include/rstore.h
put "$v2/lib/librstore.a" "$work/librstore-dev" "$libdir/librstore.a"
ln -s librstore.so.0 "$work/librstore-dev/$libdir/librstore.so"
put_pc /usr "lib/$triplet" "$work/librstore-dev/$libdir/pkgconfig/rstore.pc"
put_gz "$work/rstore.3" "$work/librstore-dev" usr/share/man/man3/rstore.3
put "$top/docs/LIBRARY.md" "$work/librstore-dev" "$doc/librstore-dev/LIBRARY.md"
put "$top/library/test/example.c" "$work/librstore-dev" "$doc/librstore-dev/examples/example.c"
package librstore-dev

site=usr/lib/python3/dist-packages
put_python "$work/python3-rstore/$site"
mkdir "$work/python3-rstore/$site/rstore-$number.dist-info"
printf 'Metadata-Version: 2.1\nName: rstore\nVersion: %s\n' "$number" \
    >"$work/python3-rstore/$site/rstore-$number.dist-info/METADATA"
put "$top/docs/LIBRARY.md" "$work/python3-rstore" "$doc/python3-rstore/LIBRARY.md"
package python3-rstore

if wants sqlite; then
    put_library rstore_sqlite.so "$work/sqlite3-rstore/$libdir"
    put "$top/docs/SQL.md" "$work/sqlite3-rstore" "$doc/sqlite3-rstore/SQL.md"
    package sqlite3-rstore
fi

if wants wheel; then
    put_python "$work/wheel"
    cp "$here/setup.py" "$work/wheel/"
    cp "$v2/lib/librstore.so.0" "$work/proved.txt" "$work/wheel/rstore/"
    touch_all "$work/wheel"
    libc=$(libc_of "$work/wheel")
    (cd "$work/wheel" && WHEEL_VERSION=$version WHEEL_PLATFORM="manylinux_${libc/./_}_x86_64" \
        "$python" setup.py -q bdist_wheel -d "$out" >"$work/log" 2>&1) || { cat "$work/log" >&2; exit 1; }
fi

# The tar has what the packages have, below one folder.
all=$work/tar/rstore-$version-x86_64
put "$v2/rstore" "$all" bin/rstore 755
put "$v3/rstore" "$all" bin/x86-64-v3/rstore 755
put_library librstore.so.0 "$all/lib"
ln -s librstore.so.0 "$all/lib/librstore.so"
! wants sqlite || put_library rstore_sqlite.so "$all/lib"
put "$v2/lib/librstore.a" "$all" lib/librstore.a
put "$v2/lib/rstore.h" "$all" include/rstore.h
put_pc '${pcfiledir}/../..' lib "$all/lib/pkgconfig/rstore.pc"
put_python "$all/python"
put "$work/rstore.1" "$all" share/man/man1/rstore.1
put "$work/rstore.3" "$all" share/man/man3/rstore.3
put "$here/completion.bash" "$all" share/bash-completion/completions/rstore
put "$work/proved.txt" "$all" PROVED
put "$here/copyright" "$all" copyright
put "$top/README.md" "$all" README.md
for it in "$top"/docs/*.{md,svg}; do
    put "$it" "$all" "docs/${it##*/}"
done
put_examples "$all"
put "$top/library/test/example.c" "$all" examples/example.c
touch_all "$all"
tar --sort=name --owner=0 --group=0 --numeric-owner --mtime="@$SOURCE_DATE_EPOCH" -C "$work/tar" \
    -cJf "$out/rstore-$version-x86_64.tar.xz" "rstore-$version-x86_64"
ls -l "$out" >&2
