# A part of ./morris: the program that the gate built from the sources that release/BUILT names,
# unpacked where it can be kept.
# shellcheck shell=sh

. "$root/launcher/unpacking.sh" || exit 126

try_unpacked() {
    "$1" --version > /dev/null 2>&1 || refuse "the released program doesn't run on this machine: \
it needs Linux on x86-64 with glibc 2.34; ./morris --from-proofs proves and builds it here"
}

introduce() {
    [ "$now" != "$of_release" ] || say "this is the program that the gate built from these \
sources; ./morris --from-proofs proves and builds it here"
}

# Where nothing can be kept, the file is gone before the program in it is at work.
run_unkept() {
    { unpack_unkept && exec 9< "$part" && [ -e /proc/self/fd/9 ]; } || refuse_unkept
    drop_part
    introduce
    run /proc/self/fd/9 "$@"
}

run_released() {
    what=program
    member=libexec/morris/morris
    digest=$(told program)
    keep || run_unkept "$@"
    [ "$is_new" = 0 ] || introduce
    run "$kept" "$@"
}
