#!/bin/sh
# Installs what `rt lib` in crates/engine and `rt run` in crates/tables built: install.sh PREFIX [ARCHIVE [PROGRAM]], both
# seen from the root. Below the prefix go the archive as lib/libtables.a, the header, the program, its page and the file
# of pkg-config. DESTDIR, if set, stands before the prefix where files are written, not in what is written into them.
set -eu
cd "$(dirname "$0")"

prefix=${1:-}
archive=${2:-crates/engine/out/libengine.a}
program=${3:-crates/tables/out/tables}
root=${DESTDIR:-}$prefix

case $prefix in
*[[:space:]]*) prefix= ;;
/*) ;;
*) prefix= ;;
esac
if [ -z "$prefix" ]; then
    echo 'usage: install.sh PREFIX [ARCHIVE [PROGRAM]], where PREFIX begins with / and has no spaces' >&2
    exit 2
fi
for file in "$archive" "$program"; do
    if [ ! -f "$file" ]; then
        echo "install.sh: there is no $file: run 'rt lib' in crates/engine and 'rt run <stdin' in crates/tables first" >&2
        exit 1
    fi
done

# number PART: a part of the version, as the header has it
number() {
    sed -n "s/^#define TABLES_VERSION_$1 //p" include/tables.h
}

install -d "$root/bin" "$root/include" "$root/lib/pkgconfig" "$root/share/man/man1"
install -m 644 "$archive" "$root/lib/libtables.a"
install -m 644 include/tables.h "$root/include/tables.h"
install -m 755 "$program" "$root/bin/tables"
install -m 644 docs/tables.1 "$root/share/man/man1/tables.1"
cat >"$root/lib/pkgconfig/tables.pc" <<END
prefix=$prefix
libdir=\${prefix}/lib
includedir=\${prefix}/include

Name: tables
Description: A proved table store for tabled Prolog
Version: $(number MAJOR).$(number MINOR).$(number PATCH)
Cflags: -I\${includedir}
Libs: -L\${libdir} -ltables
END
chmod 644 "$root/lib/pkgconfig/tables.pc"
