#!/bin/sh
# Runs Morris, which stands in libexec beside this folder, with the words, standard streams and exit
# status untouched, from any folder and through links.
set -u

say() {
    echo "morris: $1" >&2
}

case $0 in
    */*) here=$0 ;;
    *) here=$(command -v -- "$0") || exit 126 ;;
esac
if [ -L "$here" ]; then
    here=$(readlink -f -- "$here") || exit 126
fi

# Each worker takes the limit of the stack as its own, and needs so many KiB.
stack=512
has=$(ulimit -S -s) || has=unlimited
if [ "$has" != unlimited ] && [ "$has" -lt "$stack" ]; then
    if ! ulimit -S -s "$stack" 2>&-; then
        say "the program needs $stack KiB of stack, and the limit here is $has KiB (ulimit -s)"
        exit 126
    fi
fi
# A file that grows too large is a write that fails, and no signal that ends the program.
trap '' XFSZ
# The C library gives back at once what is freed in blocks of 48 KiB or more, and sets no smaller
# ones aside for its threads.
: "${MALLOC_MMAP_THRESHOLD_:=49152}"
: "${GLIBC_TUNABLES:=glibc.malloc.tcache_count=0}"
export MALLOC_MMAP_THRESHOLD_ GLIBC_TUNABLES
exec "${here%/*}/../libexec/morris/morris" "$@"
