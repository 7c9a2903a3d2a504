#!/bin/sh
# Puts the program morris to a place: program.sh PLACE [PROGRAM]. It is the one that is named, or
# the one that was built from the proofs here, or the released one where that is of these sources.
set -eu
place=$1
named=${2-}
CDPATH='' cd -P -- "$(dirname -- "$0")/../.."
root=$PWD
built=crates/morris/out/morris

refuse() {
    echo "$1" >&2
    exit 1
}

. launcher/archive.sh

now=$(sh launcher/sources)
if [ -n "$named" ]; then
    cp -- "$named" "$place.part"
elif sh launcher/sources holds "$built" "$now"; then
    cp -- "$built" "$place.part"
elif [ "$(told sources)" = "$now" ]; then
    hold_archive
    from_archive libexec/morris/morris > "$place.part" ||
        refuse "$packed can't be unpacked into $place.part"
    hold_against "$place.part" "$(told program)"
else
    refuse "the program isn't built from these sources: run ./morris --from-proofs once, or name \
it by PROGRAM=PATH"
fi
chmod 755 "$place.part"
mv -f -- "$place.part" "$place"
