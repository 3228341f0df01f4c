# What the tests of scripts share: a room for files, and counted checks. Sourced in the repository's root.
room=$(mktemp -d)
trap 'rm -rf "$room"' EXIT
checks=0
wrong=0

# same NAME EXPECTED FOUND
same() {
    checks=$((checks + 1))
    [ "$2" = "$3" ] && return
    echo "$1: expected '$2', found '$3'"
    wrong=$((wrong + 1))
}

# The last line, and the status.
finish() { # OF WHAT
    echo "$checks checks of $1, $wrong wrong"
    [ "$wrong" -eq 0 ]
}

# A folder with the tools that scripts in bin/ need and no other, so that it can stand for a path without rt and cargo.
plain_tools() {
    mkdir -p "$room/plain"
    for tool in sh cat chmod cp dd dirname env find head mkdir mktemp mv readlink rm sed touch; do
        ln -sf "$(command -v "$tool")" "$room/plain/$tool"
    done
}

# A copy of what bin/ needs of the repository, with nothing built. Everything in it is old.
copy_repository() { # FOLDER
    mkdir -p "$1/crates/one" "$1/crates/capi" "$1/crates/storecheck" "$1/rust/captions" "$1/rust/sudoku/src"
    cp -R bin include docs "$1"
    : >"$1/crates.txt"
    : >"$1/crates/one/lib.rt"
    for file in captions/main.rs sudoku/src/lib.rs Cargo.toml Cargo.lock; do
        : >"$1/rust/$file"
    done
    find "$1" -exec touch -t 202001010000 {} +
}
