# A part of ./morris: the program that is proved and built here.
# shellcheck shell=sh

program=$out/morris
lock=$out/launcher.lock
log=$out/launcher.log

# Whether the program is there that was built here from the sources of this stamp.
is_built() {
    [ -x "$program" ] && sh "$root/launcher/sources" holds "$program" "$1"
}

# A build writes into the folder out/ of each crate.
can_write() {
    for crate in "$root"/crates/*/; do
        place=${crate}out
        [ -d "$place" ] || place=${crate%/}
        if [ ! -w "$place" ]; then
            say "the program isn't built yet, and can't be, since $place can't be written to"
            return 1
        fi
    done
}

can_prove() {
    if ! command -v rt > /dev/null 2>&1; then
        say "the command rt of the Rattle kit is not on the PATH, so the program can't be built"
        return 1
    fi
    if ! command -v python3 > /dev/null 2>&1; then
        say "the command python3, which builds crate by crate, is not on the PATH"
        return 1
    fi
}

build() {
    can_prove || return 1
    say "proving and building the program (up to an hour from nothing, less after a small change)"
    # It ends when this process does, however it ends, and has the lock until then.
    if ! python3 "$root/launcher/proving.py" morris "$log" $$ < /dev/null; then
        say "the build failed; its last lines, of $log:"
        tail -n 20 "$log" >&2
        return 1
    fi
    sh "$root/launcher/sources" mark "$program" "$1" || return 1
    say "built"
}

# One run builds at a time. One that had to wait looks again, since the other may have built what it
# wants. Without the command flock, rt itself lets the second wait, and then finds nothing to do.
build_alone() {
    can_write && mkdir -p "$out" && command exec 9> "$lock" || return 1
    if command -v flock > /dev/null 2>&1 && ! flock -n 9; then
        say "another run is building the program; this one waits for it"
        flock 9 || return 1
    fi
    now=$(sh "$root/launcher/sources") || return 1
    is_built "$now" || build "$now" || return 1
    exec 9>&-
}
