# What ./morris, launcher/library and embed/packaging/ share: the archive in release/, by what
# release/BUILT tells of it. Who reads this has set `root`, the repository's folder, and has
# `refuse`, which says why and ends.
# shellcheck shell=sh

release=$root/release

# What release/BUILT says under a name, or nothing.
told() {
    [ -f "$release/BUILT" ] || return 0
    while read -r name value; do
        [ "$name" != "$1" ] || printf '%s\n' "$value"
    done < "$release/BUILT"
}

digest_of() {
    sum=$(sha256sum < "$1") && printf '%s\n' "${sum%% *}"
}

# Ends where a file hasn't the digest that BUILT tells.
hold_against() {
    has=$(digest_of "$1") || refuse "$1 can't be read"
    [ "$has" = "$2" ] || refuse "$1 has the digest $has, and not $2, as release/BUILT says: \
nothing is taken from it"
}

# Ends where one of these commands isn't there.
need() {
    for it in "$@"; do
        command -v "$it" > /dev/null 2>&1 || refuse "the command $it is not on the PATH, so what \
is released can't be unpacked"
    done
}

# Ends where the archive isn't there, or isn't the one that BUILT tells of.
hold_archive() {
    need sha256sum gzip tar
    packed=$release/$(told archive)
    [ -f "$packed" ] || refuse "there is no released program: $packed isn't there"
    hold_against "$packed" "$(told packed)"
}

# Writes a file of the archive to standard output.
from_archive() {
    top=${packed##*/}
    gzip -dc < "$packed" 2> /dev/null | tar -xOf - "${top%.tar.gz}/$1" 2> /dev/null
}
