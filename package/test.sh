#!/usr/bin/env bash
# test.sh [twice | lists]: makes the packages and uses them as who has no checkout does: what lies in each, unpacked
# and run from there; C by pkg-config against both libraries; Python from the Debian packages and from the wheel; SQLite
# with the extension; the man pages and the completion; installed into a root of its own and purged. With `twice` it
# makes them twice and compares the bytes; with `lists` it writes package/lists anew, to be read over. What it wants of
# Debian and a machine lacks it installs, where it can; what cannot be had leaves a part out, which it says, and fails
# nothing.
set -eu
here=$(cd "$(dirname "$0")" && pwd)
top=$(cd "$here/.." && pwd)
work=$(mktemp -d)
trap 'rm -rf "$work"' EXIT
trap 'echo "package/test.sh: line $LINENO: $BASH_COMMAND" >&2' ERR
fail() { echo "package/test.sh: $*" >&2; exit 1; }
export PYTHONDONTWRITEBYTECODE=1
python=/usr/bin/python3

# Whether a package of Debian's is there, by what is wanted of it.
has() {
    case $1 in
    man-db) command -v man ;;
    pkg-config | sqlite3) command -v "$1" ;;
    libsqlite3-dev) echo '#include <sqlite3ext.h>' | cc -x c -fsyntax-only - ;;
    python3-venv) "$python" -c 'import ensurepip' ;;
    python3-*) "$python" -c "import ${1#python3-}" ;;
    esac >/dev/null 2>&1
}
lacking() {
    for it in man-db pkg-config sqlite3 libsqlite3-dev python3-venv python3-setuptools python3-wheel; do
        has "$it" || echo "$it"
    done
}
apt() { DEBIAN_FRONTEND=noninteractive timeout 900 apt-get -q -y -o DPkg::Lock::Timeout=300 "$@"; }
lacks=$(lacking | xargs)
if [ -n "$lacks" ] && [ "$(id -u)" = 0 ]; then
    echo "package/test.sh: apt-get install $lacks"
    { apt install --no-install-recommends $lacks || { apt update && apt install --no-install-recommends $lacks; }; } \
        >"$work/log" 2>&1 || true
    lacks=$(lacking | xargs)
fi
[ -x "$python" ] || python=python3
[ -z "$lacks" ] || echo "package/test.sh: what wants these is left out: $lacks"
without=""
has libsqlite3-dev || without=sqlite
has python3-setuptools && has python3-wheel || without="$without wheel"
export WITHOUT=$without

"$here/build.sh" "$work/out" >"$work/log" 2>&1 || { cat "$work/log" >&2; exit 1; }
if [ "${1:-}" = twice ]; then
    "$here/build.sh" "$work/again" >"$work/log" 2>&1 || { cat "$work/log" >&2; exit 1; }
    diff -r "$work/out" "$work/again" || fail "two builds differ"
    echo "two builds are the same, byte for byte"
fi
version=$(dpkg-deb -f "$work"/out/rstore_*.deb Version)

# What lies in each: rights, owner and name of each file, of the wheel the name alone.
listed() {
    case $1 in
    *.deb)
        dpkg-deb -c "$1"
        dpkg-deb --ctrl-tarfile "$1" | tar -tv | sed 's# \./# DEBIAN/#'
        ;;
    *.tar.xz) tar -tvJf "$1" ;;
    *.whl) "$python" -m zipfile -l "$1" | awk 'NR > 1 { print $1 }' ;;
    esac | awk 'NF < 6 { print $1; next } { print $1, $2, $6, $7, $8 }' | sed -e "s/$version/VERSION/g" -e 's/ *$//'
}
root=$work/root
cd "$work"
for list in rstore librstore0 librstore-dev python3-rstore sqlite3-rstore wheel tar; do
    case " $without " in *" ${list%3-rstore} "*) continue ;; esac
    case $list in
    wheel) made=$(echo "$work"/out/*.whl) ;;
    tar) made=$(echo "$work"/out/*.tar.xz) ;;
    *)
        made=$(echo "$work/out/${list}_"*.deb)
        [ "$(dpkg-deb -f "$made" Package Version)" = "$(printf 'Package: %s\nVersion: %s' "$list" "$version")" ]
        dpkg -x "$made" "$root"
        cmp "$root/usr/share/doc/rstore/PROVED" "$root/usr/share/doc/$list/PROVED"
        ;;
    esac
    [ "${1:-}" != lists ] || listed "$made" >"$here/lists/$list"
    case $without in *sqlite*) grep -v rstore_sqlite ;; *) cat ;; esac <"$here/lists/$list" >wanted
    listed "$made" | diff wanted - || fail "$list holds other files"
done
lib=$root/usr/lib/x86_64-linux-gnu
newer=glibc-hwcaps/x86-64-v3
echo "each package has the files of its list"

# The program.
PATH=$root/usr/bin:$PATH
[ "$(command -v rstore)" = "$root/usr/bin/rstore" ]
rstore --version >/dev/null
rstore --help | diff "$top/docs/help.txt" -
rstore <"$top/examples/first.txt" | diff "$top/examples/first.out" -
rstore --create map.rst <"$top/examples/first.txt" >/dev/null
grep -q "^commit $(git -C "$top" rev-parse HEAD)" "$root/usr/share/doc/rstore/PROVED"
grep -q "^kit rattle-kit-" "$root/usr/share/doc/rstore/PROVED"
for it in command_line "rstore for x86-64-v2" "rstore_c for x86-64-v3"; do
    grep -q "^$it sources [0-9a-f]\{64\} made [0-9a-f]\{64\}$" "$root/usr/share/doc/rstore/PROVED" ||
        fail "PROVED has no $it"
done

# Its man page, that of the library, and the completion.
if has man-db; then
    for page in man1/rstore.1 man3/rstore.3; do
        said=$(MANWIDTH=80 man --warnings -E UTF-8 -l "$root/usr/share/man/$page.gz" 2>&1 >/dev/null)
        [ -z "$said" ] || fail "$page: $said"
    done
fi
completion=$root/usr/share/bash-completion/completions/rstore
bash -nu "$completion"
completed() {
    bash -c 'compopt() { :; }
        . "$1"; shift; COMP_WORDS=("$@") COMP_CWORD=$(($# - 1)); _rstore; echo "${COMPREPLY[*]}"' \
        - "$completion" "$@"
}
[ "$(completed rstore --st)" = "--strict --stats" ]
layers=$(echo layers | rstore --read-only map.rst | sed 1d | cut -d ' ' -f 1 | xargs)
[ -n "$layers" ] && [ "$(completed rstore map.rst --draw "")" = "$layers" ]
for word in $(rstore --help | grep -o '^  *\(-[hV], \)\?--[a-z-]*' | grep -o -- '--.*'); do
    grep -q -- "$word" "$completion" || fail "no completion of $word"
done
echo "the program, its man page and completion"

# No instruction in them wants more than x86-64-v2; the build beside has some.
is_newer() {
    objdump -d --no-show-raw-insn "$1" |
        grep -qE '%[yz]mm|\s(v[a-z0-9]+|andn|bextr|bls[ir]|bzhi|mulx|pdep|pext|rorx|s[ah][lr]x|movbe|lzcnt) '
}
for it in "$root/usr/bin/rstore" "$lib"/*.so.0 "$lib"/*_sqlite.so; do
    [ ! -f "$it" ] || ! is_newer "$it" || fail "${it##*/} wants more than x86-64-v2"
done
for it in "$lib/$newer"/*; do
    is_newer "$it" || fail "${it##*/} of x86-64-v3 is that of x86-64-v2"
done
# Whether the loader takes what a command ($2 ..) loads as $1 from that build, on a processor that has all it wants.
takes_newer() {
    local it=$1
    shift
    ! /lib64/ld-linux-x86-64.so.2 --help | grep -q 'x86-64-v3 (supported' ||
        LD_DEBUG=libs LD_LIBRARY_PATH=$lib "$@" 2>&1 >/dev/null | grep -q "init:.*$newer/$it" ||
        fail "the loader does not take $it for this processor"
}

# The library, by pkg-config, shared and static.
if has pkg-config; then
    told=$(sed -n 's/^#define RSTORE_VERSION "\(.*\)"/\1/p' "$root/usr/include/rstore.h")
    example=$root/usr/share/doc/librstore-dev/examples/example.c
    by_pkg_config() {
        PKG_CONFIG_PATH=$lib/pkgconfig PKG_CONFIG_SYSROOT_DIR=$root PKG_CONFIG_ALLOW_SYSTEM_CFLAGS=1 \
            PKG_CONFIG_ALLOW_SYSTEM_LIBS=1 pkg-config "$@" rstore
    }
    [ "$(by_pkg_config --modversion)" = "$told" ]
    cc "$example" $(by_pkg_config --cflags --libs) -o shared
    cc "$example" $(by_pkg_config --cflags) -Wl,-Bstatic $(by_pkg_config --libs) -Wl,-Bdynamic -o static
    LD_LIBRARY_PATH=$lib ./shared a | diff "$top/library/test/example.txt" -
    ./static b | diff "$top/library/test/example.txt" -
    readelf -d shared | grep -q 'NEEDED.*\[librstore.so.0\]'
    takes_newer librstore.so.0 ./shared c
fi
for so in "$lib/librstore.so.0" "$lib/$newer/librstore.so.0"; do
    readelf -d "$so" | grep -q 'SONAME.*\[librstore.so.0\]'
    diff <(sed -n 's/^[a-z].*[ *]\(rstore_[a-z_]*\)(.*/\1/p' "$root/usr/include/rstore.h" | sort) \
        <(nm -D --defined-only "$so" | cut -d ' ' -f 3 | sort) || fail "$so has other symbols than the header"
done
echo "the library, shared and static"

# SQLite: the session of docs/SQL.md.
if has sqlite3 && has libsqlite3-dev; then
    pages=$root/usr/share/doc/sqlite3-rstore/SQL.md
    awk '/^```sql/ { on = 1; next } /^```/ { on = 0 } on' "$pages" | sed 's|library/lib/||' >session.sql
    awk '/^```/ { n++; next } n == 3' "$pages" >session.txt
    [ -s session.txt ]
    LD_LIBRARY_PATH=$lib sqlite3 :memory: <session.sql | diff session.txt -
    takes_newer rstore_sqlite.so sqlite3 :memory: '.load rstore_sqlite'
    echo "SQLite with the extension"
fi

# Python, without the package of the header.
rm "$lib/librstore.so" "$lib/librstore.a"
mkdir -p tests/library/test tests/tests
cp "$top"/library/test/test_{rstore,shell}.py tests/library/test/
cp "$top/tests/plain_table.py" tests/tests/
export RSTORE_QUICK=1
try_python() {
    (
        cd tests
        export LD_LIBRARY_PATH=$2 PYTHONPATH=$3
        "$1" -c 'import rstore, rstore_rtree, rstore.rtree as new; assert rstore_rtree.index is new.index'
        "$1" library/test/test_rstore.py "$root/usr/bin/rstore" >/dev/null
        "$1" library/test/test_shell.py >/dev/null
    )
}
try_python "$python" "$lib" "$root/usr/lib/python3/dist-packages"
echo "Python from its package"

# The wheel, in an environment that has nothing else, and with no library but its own.
wheel=$(echo "$work"/out/*.whl)
if has python3-venv && [ -e "$wheel" ]; then
    "$python" -m venv venv
    venv/bin/pip install -q --no-index --no-deps "$wheel"
    cmp venv/lib/python3*/site-packages/rstore/proved.txt "$root/usr/share/doc/rstore/PROVED"
    try_python "$work/venv/bin/python" "" ""
    echo "Python from its wheel"
fi

# The tar.
tar -xJf "$work"/out/*.tar.xz
cd rstore-*-x86_64
bin/rstore <examples/first.txt | diff examples/first.out -
echo "count a" | PYTHONPATH=python "$python" -m rstore | grep -qx "fail 3 NoLayer"
if has pkg-config; then
    cc examples/example.c $(PKG_CONFIG_PATH=lib/pkgconfig pkg-config --cflags --libs rstore) -o "$work/of_tar"
    LD_LIBRARY_PATH=lib "$work/of_tar" "$work/d" | diff "$top/library/test/example.txt" -
fi
if has sqlite3 && has libsqlite3-dev; then
    sed 's|load rstore|load lib/rstore|' "$work/session.sql" | sqlite3 :memory: | diff "$work/session.txt" -
fi
cd "$work"
echo "the tar"

# Installed into a root of its own, used there as its owner would, which leaves what Python compiles, and gone again.
if [ "$(id -u)" = 0 ]; then
    clean=$work/clean
    mkdir -p "$clean"/var/lib/dpkg/{info,updates,triggers}
    touch "$clean/var/lib/dpkg/status"
    in_clean() {
        PATH=$PATH:/usr/sbin:/sbin dpkg --root="$clean" --force-depends --force-script-chrootless --log=/dev/null "$@" \
            >log 2>&1 || { cat log >&2; exit 1; }
    }
    in_clean -i "$work"/out/*.deb
    [ -x "$clean/usr/bin/rstore" ]
    PYTHONDONTWRITEBYTECODE="" PYTHONPATH=$clean/usr/lib/python3/dist-packages "$python" -c 'import rstore_rtree'
    [ -d "$clean/usr/lib/python3/dist-packages/rstore/__pycache__" ]
    in_clean --purge $(for deb in "$work"/out/*.deb; do dpkg-deb -f "$deb" Package; done)
    after=$(cd "$clean" && find . -mindepth 1 -not -path './var*' | sort)
    [ -z "$after" ] || fail "left after a purge: $after"
    echo "installed, and nothing left after a purge"
else
    echo "no test of an installation: it wants root"
fi
