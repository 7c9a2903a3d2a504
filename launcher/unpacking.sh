# What ./morris and launcher/library share: a file of the archive in release/, and where it is kept
# once it is unpacked: in out/, or in a folder of the user's own, there in a folder named by its
# digest. Who reads this has set what launcher/archive.sh wants, and then
#
#     out       the folder crates/morris/out
#     member    the file's name in the archive
#     digest    the digest that release/BUILT tells of it
#     what      what it is, in a word
#
# and has `refuse`, and `try_unpacked FILE`, which ends where such a file is of no use on this
# machine.
# shellcheck shell=sh

. "$root/launcher/archive.sh" || exit 126

# The user's folder for what can be made again, where there is one.
cache_folder() {
    case ${XDG_CACHE_HOME:-${HOME:-}/.cache} in
        /.cache) ;;
        /*) printf '%s\n' "${XDG_CACHE_HOME:-$HOME/.cache}/morris" ;;
    esac
}

# Whether the file is there, may be run and has its digest.
is_kept() {
    [ -x "$1" ] && [ "$(digest_of "$1")" = "$digest" ]
}

# Unpacks into a file that is there, and holds what came against its digest and against the machine.
# Fails where the file can't be written to, or nothing may be run from its folder.
unpack() {
    from_archive "$member" > "$1" || return 1
    hold_against "$1" "$digest"
    chmod 755 "$1" && [ -x "$1" ] || return 1
    try_unpacked "$1"
}

# Makes a file of its own name in a folder, which is removed where this run ends before its time.
make_part() {
    part=$(mktemp "$1/morris.XXXXXXXX" 2> /dev/null) || return 1
    trap 'rm -f -- "$part"' EXIT
    trap 'exit 126' HUP INT TERM
}

# Leaves the file to whoever has it now.
leave_part() {
    trap - EXIT HUP INT TERM
}

drop_part() {
    rm -f -- "$part"
    leave_part
}

# Unpacks to a path under another name first, so that no run finds half a file.
keep_as() {
    folder=${1%/*}
    mkdir -p -- "$folder" 2> /dev/null && make_part "$folder" || return 1
    if unpack "$part" && mv -f -- "$part" "$1"; then
        leave_part
    else
        drop_part
        return 1
    fi
}

# Sets `kept` to the path where the file is kept, and `is_new` to 1 where it was unpacked just now.
# Fails where it can be kept nowhere, and ends where the archive isn't the released one.
keep() {
    need mktemp
    hold_archive
    cache=$(cache_folder)
    for place in "$out/released" ${cache:+"$cache"}; do
        kept=$place/$digest/${member##*/}
        is_new=0
        if is_kept "$kept"; then return; fi
        is_new=1
        if keep_as "$kept"; then return; fi
    done
    return 1
}

# Unpacks into a file `part` that nothing keeps, in the folder of temporary files.
unpack_unkept() {
    make_part "${TMPDIR:-/tmp}" && unpack "$part"
}

refuse_unkept() {
    refuse "the released $what can't be unpacked: no folder that was tried ($out, \
${cache:+$cache, }${TMPDIR:-/tmp}) can be written to, has room for it and lets programs run"
}
