#!/bin/sh
# Makes the proved static library, crates/morris_c/out/libmorris_c.a, where the one that is there
# isn't of these sources, by what launcher/sources noted beside it. Where release/BUILT is of these
# very sources, it is the one that was built from them, and else, or with MORRIS_FROM_PROOFS=1, `rt
# lib` makes it.
set -u
CDPATH='' cd -P -- "$(dirname -- "$0")/../.." || exit 1
root=$PWD
crate=crates/morris_c
made=$crate/out/libmorris_c.a

say() {
    echo "$1" >&2
}

refuse() {
    say "$1"
    exit 1
}

. launcher/archive.sh || exit 1

is_released() {
    [ "${MORRIS_FROM_PROOFS-}" != 1 ] && [ "$(told sources)" = "$now" ]
}

# The released library without what the C files of embed/ give it.
unpack_released() {
    hold_archive
    trap 'rm -f -- "$made.part"' EXIT
    mkdir -p "$crate/out" || exit 1
    if ! from_archive lib/libmorris.a > "$made.part" ||
        ! "${AR:-ar}" dD "$made.part" morris_faults.o morris_folder.o morris_tables.o; then
        refuse "$packed can't be unpacked into $crate/out"
    fi
    hold_against "$made.part" "$(told library)"
    mv -f -- "$made.part" "$made"
    say "this is the library that the gate built from these sources; MORRIS_FROM_PROOFS=1 proves and \
builds it here"
}

prove() {
    if ! command -v rt > /dev/null 2>&1; then
        say "the library of Morris is proved and built by the Rattle kit, whose command rt isn't on \
the PATH. A release of Morris has it built; CORE=PATH names a libmorris_c.a"
        return 1
    fi
    say "proving and building the library: some minutes, and more where nothing is proved yet"
    ended=$(mktemp) || return 1
    trap 'rm -f -- "$ended"' EXIT
    # The prover's first, quick pass reads functions too that the library doesn't reach. Since one
    # of them starts threads, it says of each export that its theorem can't be stated. Whether it is
    # proved, the verdict says that comes after that, and `rt lib` ends with it.
    {
        (cd "$crate" && rt lib) 2>&1
        echo $? > "$ended"
    } | grep -v -e 'error\[unsupported-theorem\]' -e 'the theorem of .* cannot be stated' >&2
    return "$(cat "$ended")"
}

now=$(sh launcher/sources) || refuse "the sources can't be read"
if ! sh launcher/sources holds "$made" "$now"; then
    if is_released; then
        unpack_released
    else
        prove || exit
    fi
    # (`rt lib` leaves a library alone that it finds up to date, and then `make` would too)
    touch "$made" && sh launcher/sources mark "$made" "$now"
fi
