# Builds what the scripts in bin/ run, on first use and again after a change. Sourced after messages.sh by a script that sets `root` to
# the repository's folder.

library=$root/target/staticlib/libcapi.a
storecheck=$root/target/bin/storecheck
captions=$root/rust/target/release/captions
log=$root/target/$me.log
log_begun=

# Whether a file is there and nothing that it is made from is newer; a folder is where something in it was added or removed.
up_to_date() { # FILE WHAT IT IS MADE FROM..
    file=$1
    shift
    [ -f "$file" ] && [ -z "$(find "$@" -newer "$file" | head -n 1)" ]
}

# The same of a file that is made from the crates. The toolchain keeps work of its own in the folder out/ of each, so that neither it nor
# the time of the crate's folder, in which it stands, tells of a change.
proved_up_to_date() { # FILE
    [ -f "$1" ] && [ -z "$(cd "$root" && find crates.txt crates \( -path 'crates/*/out' -prune \) -o \( -path 'crates/*' ! -path 'crates/*/*' \) \
        -o -newer "$1" -print | head -n 1)" ]
}

# Keeps in the log what a tool says, shows the name of each crate that is proved as it comes, and returns the tool's status.
follow() {
    status=1
    while IFS= read -r line; do
        case $line in
        "rt: chose --jobs "*) say "proving ${line##* }" ;;
        "rt: rt "* | "rt: running "* | "rt: nothing has changed "*) ;;
        "rt: "*) say "${line#rt: }" ;;
        "   Compiling "*)
            line=${line#"   Compiling "}
            say "compiling ${line%% *}"
            ;;
        "the tool's status: "*) status=${line##* } ;;
        esac
        printf '%s\n' "$line" >&3
    done 3>>"$log"
    return "$status"
}

begin_log() {
    [ -z "$log_begun" ] || return 0
    { mkdir -p "$root/target" && (: >"$log"); } 2>/dev/null || fail 1 "'$root/target' cannot be written"
    log_begun=yes
}

# Runs a tool in a folder, and puts what it makes there in a file's place. That counts as made when the tool began, also where it found
# nothing to do: what is changed meanwhile is newer.
run_tool() { # FILE WHAT THE TOOL MAKES, FOLDER TOOL WORDS..
    file=$1
    made=$2
    folder=$3
    shift 3
    begin_log
    (: >"$log.begun")
    { (cd "$folder" && "$@") </dev/null 2>&1 && echo "the tool's status: 0" || echo "the tool's status: $?"; } | follow \
        || fail 1 "it could not be built; target/$me.log says why"
    [ -f "$made" ] || fail 1 "it could not be built: there is no '$made'; target/$me.log may say why"
    [ "$made" = "$file" ] || { mkdir -p "$(dirname -- "$file")" && cp -f -- "$made" "$file"; } 2>/dev/null || fail 1 "'$file' cannot be written"
    touch -r "$log.begun" "$file"
    rm -f "$log.begun"
}

need() { # COMMAND WHAT IT IS
    command -v "$1" >/dev/null 2>&1 || fail 1 "$2 $1 is not on the path; it is needed to build the program"
}

build_storecheck() {
    ! proved_up_to_date "$storecheck" || return 0
    need rt "the toolchain's command"
    say "proving and building the program; from nothing this takes some minutes, longer where the machine is busy"
    # It is run once on no input, which the toolchain does with what it builds.
    run_tool "$storecheck" "$root/crates/storecheck/out/storecheck" "$root/crates/storecheck" rt run
}

build_library() {
    ! proved_up_to_date "$library" || return 0
    need rt "the toolchain's command"
    say "proving and building the library; from nothing this takes some minutes, longer where the machine is busy"
    run_tool "$library" "$root/crates/capi/out/libcapi.a" "$root/crates/capi" rt lib
}

# The program over the library that was just proved, and where it is looked for, whatever the variables say.
build_captions() {
    build_library
    rust=$root/rust
    ! up_to_date "$captions" "$library" "$rust/captions" "$rust/sudoku" "$rust/Cargo.toml" "$rust/Cargo.lock" || return 0
    need cargo "Rust's command"
    say "building the program"
    run_tool "$captions" "$captions" "$rust" env -u SUDOKU_STATICLIB -u CARGO_BUILD_TARGET \
        cargo build --release --offline --locked -p captions --target-dir "$rust/target"
}
