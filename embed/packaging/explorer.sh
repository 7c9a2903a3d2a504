#!/bin/sh
# Runs the explorer, which stands in share/morris-explorer or python beside this folder, with the
# arguments unchanged, from any folder and through links. PYTHON names another Python than python3.
set -u
case $0 in
    */*) here=$0 ;;
    *) here=$(command -v -- "$0") || exit 126 ;;
esac
if [ -L "$here" ]; then
    here=$(readlink -f -- "$here") || exit 126
fi
top=${here%/*}/..
for folder in share/morris-explorer python; do
    if [ -f "$top/$folder/explorer.py" ]; then
        library=$top/lib/libmorris.so.1
        if [ -z "${MORRIS_LIBRARY-}" ] && [ -f "$library" ]; then
            MORRIS_LIBRARY=$library
            export MORRIS_LIBRARY
        fi
        exec "${PYTHON:-python3}" -B "$top/$folder/explorer.py" "$@"
    fi
done
echo "morris-explorer: explorer.py isn't in $top/share/morris-explorer or $top/python" >&2
exit 126
