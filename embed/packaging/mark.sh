#!/bin/sh
# Notes of what sources a shared library was made: mark.sh LIBRARY CORE INTERFACE, of which CORE is
# the proved static library in it, and INTERFACE has the stamp of the C files in its last line. Of a
# core of which nothing is noted nobody knows the sources, so then nothing is noted of the library.
set -u
sources=../launcher/sources
[ -f "$2.sources" ] || exit 0
read -r sum size _ < "$2.sources" || exit 1
sh "$sources" holds "$2" "$sum $size" || exit 0
exec sh "$sources" mark "$1" "$sum $size $(tail -n 1 "$3")"
