#!/bin/sh
# bin/captions as a launcher, and bin/library: what is built and when, what is said, and that the program that is run gets everything as
# it was given. The tools are stand-ins that write down how they were called.
set -u
cd "$(dirname "$0")/.." || exit 1
. tests/checks.sh
nl='
'
plain_tools
copy="$room/a copy"
copy_repository "$copy"
launcher="$copy/bin/captions"

# The toolchain makes an archive, cargo a program; each reads all input it is given. What $FAILS names fails, what $MAKES_NOTHING names
# ends well without its file.
mkdir -p "$room/tools"
cat >"$room/tools/rt" <<'TOOL'
#!/bin/sh
echo "rt $* in ${PWD##*/}" >>"$CALLS"
cat >/dev/null
echo "rt: chose --jobs 2 for one"
echo "fn one::first: proved"
echo "rt: rt lemma WORD.. finds a lemma"
[ "${FAILS:-}" != rt ] || exit 3
[ "${MAKES_NOTHING:-}" != rt ] || exit 0
mkdir -p out
echo archive >out/libcapi.a
TOOL
cat >"$room/tools/cargo" <<'TOOL'
#!/bin/sh
words="$1 $2 $3 $4 $5 $6 $7"
echo "cargo $words in ${PWD##*/}, SUDOKU_STATICLIB ${SUDOKU_STATICLIB-unset}" >>"$CALLS"
cat >/dev/null
echo "   Compiling sudoku v0.1.0 (/somewhere/rust/sudoku)" >&2
echo "   Compiling captions v0.1.0 (/somewhere/rust/captions)" >&2
[ "${FAILS:-}" != cargo ] || exit 101
[ "${MAKES_NOTHING:-}" != cargo ] || exit 0
mkdir -p "$8/release"
cp "$PROGRAM" "$8/release/captions"
TOOL
# The program says how it was called, and ends as its first word asks.
cat >"$room/program" <<'PROGRAM'
#!/bin/sh
case ${1-} in
pid) echo "$$" ;;
status) exit "$2" ;;
signal) kill -TERM "$$" ;;
input) cat ;;
stderr) echo "to standard error" >&2 ;;
esac
for word; do
    printf '<%s>' "$word"
done
PROGRAM
chmod +x "$room/tools/rt" "$room/tools/cargo" "$room/program"
CALLS=$room/calls
PROGRAM=$room/program
export CALLS PROGRAM
with_tools=$room/tools:$room/plain

run() { # WORDS FOR THE LAUNCHER..
    : >"$CALLS"
    PATH=$with_tools "$launcher" "$@" >"$room/out" 2>"$room/said" </dev/null
    echo $? >"$room/status"
}
status() {
    cat "$room/status"
}
called() {
    tr '\n' ';' <"$CALLS"
}
said() {
    tr '\n' ';' <"$room/said"
}

rt_call="rt lib in capi;"
cargo_call="cargo build --release --offline --locked -p captions --target-dir in rust, SUDOKU_STATICLIB unset;"

# Tools that are missing are told before anything is built.
PATH=$room/plain "$launcher" 2>"$room/said"
same "without rt" "1 captions: the toolchain's command rt is not on the path; it is needed to build the program;" "$? $(said)"
FAILS=rt run show
same "a library that cannot be proved" "1 $rt_call" "$(status) $(called)"
same "what is said then" "captions: it could not be built; target/captions.log says why" "$(tail -n 1 "$room/said")"
same "what its log has" \
    "rt: chose --jobs 2 for one;fn one::first: proved;rt: rt lemma WORD.. finds a lemma;the tool's status: 3;" "$(tr '\n' ';' <"$copy/target/captions.log")"
same "what is printed then" "" "$(cat "$room/out")"
MAKES_NOTHING=rt run show
same "a library that is not there after all" "1 $rt_call" "$(status) $(called)"
same "what is said of it" 1 "$(grep -c "^captions: it could not be built: there is no '$copy/crates/capi/out/libcapi.a';" "$room/said")"
FAILS=cargo run show
same "a program that cannot be built" "1 $rt_call$cargo_call" "$(status) $(called)"
same "the last words then" "captions: it could not be built; target/captions.log says why" "$(tail -n 1 "$room/said")"
same "the log of both tools" "rt: chose --jobs 2 for one;the tool's status: 0;the tool's status: 101;" \
    "$(grep -e '^rt: chose' -e status "$copy/target/captions.log" | tr '\n' ';')"
MAKES_NOTHING=cargo run show
same "a program that is not there after all" "1 $cargo_call" "$(status) $(called)"
cp "$room/tools/rt" "$room/plain"
PATH=$room/plain "$launcher" 2>"$room/said"
same "without cargo" "1 captions: Rust's command cargo is not on the path; it is needed to build the program;" "$? $(said)"
rm "$room/plain/rt"

# First use: only the program is built, since the library is there; what is said goes to standard error.
SUDOKU_STATICLIB=/elsewhere/libcapi.a
CARGO_TARGET_DIR=/elsewhere/target
export SUDOKU_STATICLIB CARGO_TARGET_DIR
run one 'two words' '' "new${nl}line" -- -x
same "first use" "0 $cargo_call" "$(status) $(called)"
same "the words handed over" "<one><two words><><new${nl}line><--><-x>" "$(cat "$room/out")"
same "what is shown" "captions: building the program;captions: compiling sudoku;captions: compiling captions;" "$(said)"
unset SUDOKU_STATICLIB CARGO_TARGET_DIR
rm -rf "$copy/target" "$copy/rust/target"
run one
same "first use of all" "0 $rt_call$cargo_call" "$(status) $(called)"
same "the crates are shown" "1 0" "$(grep -c '^captions: proving one$' "$room/said") $(grep -c lemma "$room/said")"
same "the archive in its place" archive "$(cat "$copy/target/staticlib/libcapi.a")"

# From then on nothing is built and nothing said, and no tool is needed.
PATH=$room/plain "$launcher" one >"$room/out" 2>"$room/said"
same "second use" "0 <one> " "$? $(cat "$room/out") $(said)"
run
same "no words" "0  " "$(status) $(called) $(cat "$room/out")"
for code in 0 1 2 77; do
    run status $code
    same "status $code" "$code " "$(status) $(said)"
done
run signal
same "a signal" 143 "$(status)"
run stderr
same "its standard error" "to standard error;" "$(said)"
same "its input" "a${nl}b<input>" "$(printf 'a\nb' | PATH=$room/plain "$launcher" input)"
pid=$(PATH=$room/plain sh -c 'echo $$; exec "$1" pid' - "$launcher" | tr '\n' ' ')
same "the launcher becomes the program" "${pid%% *}" "$(echo "$pid" | cut -d ' ' -f 2 | cut -d '<' -f 1)"
PATH=$room/plain "$launcher" one >&- 2>"$room/said"
same "closed output" "1 captions: standard output is closed" "$? $(cat "$room/said")"
ln -s "$launcher" "$room/linked"
same "through a link, from elsewhere" "<one>" "$(cd "$room" && PATH=$room/plain ./linked one)"

# Input that comes while it is built is the program's still.
rm -rf "$copy/target" "$copy/rust/target"
same "input while building" "a${nl}b<input>" "$(printf 'a\nb' | PATH=$with_tools "$launcher" input 2>"$room/said")"

# Each thing that is newer than library or program, and what is built anew for it.
changed() { # FILE
    for made in target/staticlib/libcapi.a rust/target/release/captions; do
        touch -t 202001020000 "$copy/$made"
    done
    touch -t 202001030000 "$copy/$1"
    run one
    echo "$(status) $(called)"
    touch -t 202001010000 "$copy/$1"
}
for file in crates.txt crates/one/lib.rt; do
    same "$file is newer" "0 $rt_call$cargo_call" "$(changed $file)"
done
for file in rust/captions/main.rs rust/sudoku/src/lib.rs rust/Cargo.toml rust/Cargo.lock target/staticlib/libcapi.a; do
    same "$file is newer" "0 $cargo_call" "$(changed $file)"
done
same "nothing is newer" "0 " "$(changed README)"
mkdir "$copy/crates/one/out"
: >"$copy/crates/one/out/kept"
same "work that the toolchain keeps is newer" "0 " "$(changed crates/one/out/kept)"
rm "$copy/README"
touch -t 202001030000 "$copy/crates.txt"
touch -t 202001020000 "$copy/target/staticlib/libcapi.a"
FAILS=rt run one
same "a change that cannot be proved" "1 $rt_call" "$(status) $(called)"
same "no old program is run then" "" "$(cat "$room/out")"
touch -t 202001010000 "$copy/crates.txt"

# The library alone, for programs in C.
library() { # WORDS FOR bin/library..
    : >"$CALLS"
    PATH=$with_tools "$copy/bin/library" "$@" >"$room/out" 2>"$room/said" </dev/null
    echo "$? $(called)"
}
rm -rf "$copy/target"
same "the library alone" "0 $rt_call" "$(library)"
same "its archive" archive "$(cat "$copy/target/staticlib/libcapi.a")"
same "the library once more" "0 " "$(library)"
same "the library called with a word" "2 " "$(library one)"
rm -rf "$copy/target"
same "a library that cannot be made" "1 $rt_call" "$(FAILS=rt library)"
same "what is said of it then" "library: it could not be built; target/library.log says why" "$(tail -n 1 "$room/said")"

rm -rf "$copy/target" "$copy/rust/target"
: >"$copy/target"
run one
same "no room for the log" "1 captions: '$copy/target' cannot be written" "$(status) $(tail -n 1 "$room/said")"

finish "bin/captions as a launcher"
