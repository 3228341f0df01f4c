# Messages of the scripts in bin/, on standard error. Sourced by a script that sets `me` to its name.

say() { # MESSAGE
    printf '%s: %s\n' "$me" "$1" >&2 || :
}

fail() { # STATUS MESSAGE
    say "$2"
    exit "$1"
}

# A closed output is told before anything is built. A program may find another file in its place, and write there.
need_output() {
    ( : 3>&1 ) 2>/dev/null || fail 1 "standard output is closed"
}
