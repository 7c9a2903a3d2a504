#!/bin/sh
# Installs Morris from the folder in which this script stands, that of an unpacked archive:
#
#   ./install.sh PREFIX=/usr/local       puts the program, the explorer, the library, its headers
#                                        and the module for Python under PREFIX
#   ./install.sh uninstall PREFIX=..     removes them
#
# LIBDIR and INCLUDEDIR are PREFIX/lib and PREFIX/include unless they are given, and PYTHON is
# python3. With DESTDIR all goes below that folder, for a package that is installed later.
#
# Each file takes the place of an older one at once: a program that has the older one open or mapped
# goes on with it. Files are copied before the first one takes its place, so an install that fails
# for want of room or of a right changes nothing.
set -u
CDPATH='' cd -P -- "$(dirname -- "$0")" || exit 1
umask 022

refuse() {
    echo "install.sh: $1" >&2
    exit 1
}

task=install PREFIX=/usr/local DESTDIR='' LIBDIR='' INCLUDEDIR='' PYTHON=python3
for argument in "$@"; do
    case $argument in
        uninstall) task=uninstall ;;
        PREFIX=*) PREFIX=${argument#*=} ;;
        DESTDIR=*) DESTDIR=${argument#*=} ;;
        LIBDIR=*) LIBDIR=${argument#*=} ;;
        INCLUDEDIR=*) INCLUDEDIR=${argument#*=} ;;
        PYTHON=*) PYTHON=${argument#*=} ;;
        *) refuse "$argument isn't uninstall, PREFIX=, LIBDIR=, INCLUDEDIR=, DESTDIR= or PYTHON=" ;;
    esac
done
PREFIX=${PREFIX%/}
: "${LIBDIR:=$PREFIX/lib}" "${INCLUDEDIR:=$PREFIX/include}"
for it in "$PREFIX/" "$LIBDIR" "$INCLUDEDIR"; do
    case $it in
        /*) ;;
        *) refuse "$it isn't a path from the root" ;;
    esac
done
explorer=$PREFIX/share/morris-explorer
soname=libmorris.so.1

# Where Python looks for modules of the prefix, or nothing if there is no Python.
site=$("$PYTHON" -B - "$PREFIX" << 'END' 2> /dev/null
import site
import sys
import sysconfig

prefix = sys.argv[1]
known = [it for it in site.getsitepackages() if it.startswith(f"{prefix}/lib")]
base = {"base": prefix, "platbase": prefix}
print(known[0] if known else sysconfig.get_path("purelib", "posix_prefix", vars=base))
END
) || site=''

# Calls a function for each file, with its mode, the file here and its place.
each() {
    "$1" 755 bin/morris "$PREFIX/bin/morris"
    "$1" 755 bin/morris-explorer "$PREFIX/bin/morris-explorer"
    "$1" 755 libexec/morris/morris "$PREFIX/libexec/morris/morris"
    "$1" 644 include/morris.h "$INCLUDEDIR/morris.h"
    "$1" 644 include/morris_folder.h "$INCLUDEDIR/morris_folder.h"
    "$1" 644 lib/libmorris.a "$LIBDIR/libmorris.a"
    "$1" 755 "lib/$soname" "$LIBDIR/$soname"
    "$1" link "$soname" "$LIBDIR/libmorris.so"
    "$1" package lib/pkgconfig/morris.pc "$LIBDIR/pkgconfig/morris.pc"
    "$1" 644 share/man/man1/morris.1 "$PREFIX/share/man/man1/morris.1"
    "$1" 644 LICENSE "$PREFIX/share/doc/morris/LICENSE"
    "$1" 644 NOTICES "$PREFIX/share/doc/morris/NOTICES"
    [ -z "$site" ] || "$1" 644 python/morris.py "$site/morris.py"
    for module in morris explorer explorer_tables; do
        "$1" 644 "python/$module.py" "$explorer/$module.py"
    done
    for page in python/explorer/*; do
        "$1" 644 "$page" "$explorer/explorer/${page##*/}"
    done
}

# The path of a folder as morris.pc has it.
below_prefix() {
    case $1 in
        "$PREFIX"/*) printf '%s' "\${prefix}${1#"$PREFIX"}" ;;
        *) printf '%s' "$1" ;;
    esac
}

write_package() {
    printf 'prefix=%s\nlibdir=%s\nincludedir=%s\n' "$PREFIX" "$(below_prefix "$LIBDIR")" \
        "$(below_prefix "$INCLUDEDIR")"
    sed -e '/^prefix=/d' -e '/^libdir=/d' -e '/^includedir=/d' "$1"
}

# Copies a file beside its place.
stage() {
    place=$DESTDIR$3
    mkdir -p -- "${place%/*}" || fail
    case $1 in
        link) ln -sf -- "$2" "$place.new" || fail ;;
        package) write_package "$2" > "$place.new" || fail ;;
        *) install -m "$1" -- "$2" "$place.new" || fail ;;
    esac
}

drop() {
    rm -f -- "$DESTDIR$3.new"
}

fail() {
    each drop
    refuse "nothing was installed"
}

finish() {
    mv -f -- "$DESTDIR$3.new" "$DESTDIR$3" || refuse "$DESTDIR$3 can't be put there"
}

remove() {
    rm -f -- "$DESTDIR$3" || exit 1
}

if [ "$task" = install ]; then
    trap 'each drop; exit 1' HUP INT TERM
    each stage
    trap '' HUP INT TERM
    each finish
else
    each remove
    rm -rf -- "$DESTDIR$explorer"
    [ -z "$site" ] || rm -f -- "$DESTDIR$site/__pycache__/morris."*.pyc
    rmdir -- "$DESTDIR$PREFIX/libexec/morris" "$DESTDIR$PREFIX/share/doc/morris" 2> /dev/null
    exit 0
fi
