#!/bin/sh
# The launcher and the program as people use them: the examples, bad calls, input in pieces, how much is read, input and output
# that fail, the examples of docs/FORMAT.md, hurt parity lines, and building.
set -u
cd "$(dirname "$0")/.." || exit 1
. tests/checks.sh

# Every example, as an argument, on standard input, and in two pieces: the second implementation's report.
for store in examples/*.store; do
    report=$(cat "${store%.store}.report")
    same "$store" "$report" "$(bin/storecheck "$store")"
    same "$store on standard input" "$report" "$(bin/storecheck <"$store")"
    same "$store in pieces" "$report" "$({ head -c 100 "$store"; sleep 0.1; tail -c +101 "$store"; } | bin/storecheck)"
done

# Cut off anywhere: 1 below 28 bytes, otherwise 4; and with a byte too many.
for n in 0 1 27 28 29 700 1707; do
    head -c "$n" examples/clean.store >"$room/cut"
    same "cut off after $n bytes" "answer $([ "$n" -lt 28 ] && echo 1 || echo 4)" "$(bin/storecheck "$room/cut")"
done
{ cat examples/clean.store; printf x; } >"$room/long"
same "one byte more" "answer 4" "$(bin/storecheck "$room/long")"
same "no input" "answer 1" "$(bin/storecheck </dev/null)"
same "closed input of the program" "answer 1" "$(target/bin/storecheck <&-)"
same "a directory as input of the program" "answer 1" "$(target/bin/storecheck <examples)"
same "endless input" "answer 2" "$(bin/storecheck </dev/zero)"

# No more is read than needed: what is left of the input after the answer.
left() {
    { target/bin/storecheck >"$room/answer"; cat; } <"$1" | wc -c
}
cat examples/clean.store examples/clean.store >"$room/twice"
same "left of a file that is too long" $((2 * 1708 - 1709)) "$(left "$room/twice")"
same "left of a whole file" 0 "$(left examples/clean.store)"
printf '\021\000\021\000' | cat - examples/clean.store >"$room/seventeen"
same "left of a store of 17 rows" $((1708 + 4 - 28)) "$(left "$room/seventeen")"
same "a store of 17 rows" "answer 3" "$(cat "$room/answer")"
printf '\001\000\021\000' | cat - examples/clean.store >"$room/one"
same "left of a store of one row" $((1708 + 4 - 28)) "$(left "$room/one")"
same "a store of one row and 17 columns" "answer 2" "$(cat "$room/answer")"
{ head -c 4 examples/clean.store; tail -c +9 examples/clean.store; } >"$room/contents"
same "left where the contents table is wrong" $((1704 - 28)) "$(left "$room/contents")"
same "a wrong contents table" "answer 4" "$(cat "$room/answer")"

# Bad calls end with a message and a status.
called() {
    bin/storecheck "$@" >"$room/out" 2>"$room/said" </dev/null
    echo "$? $(wc -l <"$room/said") $(wc -c <"$room/out")"
}
same "no such file" "1 1 0" "$(called "$room/none")"
same "a directory" "1 1 0" "$(called examples)"
same "two files" "2 1 0" "$(called examples/clean.store examples/hurt.store)"
same "no such option" "2 1 0" "$(called --fast)"
case $(called --help) in "0 0 "*) help=shown ;; *) help=missing ;; esac
same "help" shown "$help"
ln -s "$PWD/bin/storecheck" "$room/linked"
nl='
'
for name in 'a b' -x "new${nl}line"; do
    cp examples/hurt.store "$room/$name"
    same "the name '$name'" "$(cat examples/hurt.report)" "$(bin/storecheck "$room/$name")"
done
same "through a link, from elsewhere" "$(cat examples/hurt.report)" "$(cd "$room" && ./linked "$OLDPWD/examples/hurt.store")"

# What input or output that fails ends with: the status, what is said on standard error, and how much is printed.
ended() { # STATUS
    echo "$1 $(cat "$room/said"), $(wc -c <"$room/out") bytes"
}
: >"$room/out"
bin/storecheck examples/hurt.store >/dev/full 2>"$room/said"
same "a full disk" "1 storecheck: the report cannot be written, 0 bytes" "$(ended $?)"
bin/storecheck <examples/hurt.store >/dev/full 2>"$room/said"
same "a full disk, standard input" "1 storecheck: the report cannot be written, 0 bytes" "$(ended $?)"
bin/storecheck --help >/dev/full 2>"$room/said"
same "help to a full disk" "1 storecheck: the help cannot be written, 0 bytes" "$(ended $?)"
bin/storecheck examples/hurt.store >&- 2>"$room/said"
same "closed output" "1 storecheck: standard output is closed, 0 bytes" "$(ended $?)"
bin/storecheck --help >&- 2>"$room/said"
same "help to a closed output" "1 storecheck: standard output is closed, 0 bytes" "$(ended $?)"
{
    sleep 0.3
    bin/storecheck examples/hurt.store 2>"$room/said"
    echo $? >"$room/status"
} | true
same "a reader that is gone" "1 storecheck: the report cannot be written, 0 bytes" "$(ended "$(cat "$room/status")")"
said=$({ (ulimit -f 0; exec bin/storecheck examples/hurt.store >"$room/out" 2>&3); echo "status $?"; } 3>&1)
same "a limit on the file's size" "storecheck: the report cannot be written${nl}status 1" "$said"
bin/storecheck examples/hurt.store >&- 2>&-
same "closed output and nowhere to say it" 1 $?
bin/storecheck <&- >"$room/out" 2>"$room/said"
same "closed input" "1 storecheck: standard input is closed, 0 bytes" "$(ended $?)"
bin/storecheck <examples >"$room/out" 2>"$room/said"
same "a directory on standard input" "1 storecheck: standard input is a directory, 0 bytes" "$(ended $?)"
bin/storecheck 0>"$room/written" >"$room/out" 2>"$room/said"
same "an input open for writing only" "1 storecheck: standard input cannot be read, 0 bytes" "$(ended $?)"
if [ -r /proc/self/mem ]; then
    bin/storecheck /proc/self/mem >"$room/out" 2>"$room/said"
    same "a file whose reading fails" "1 storecheck: '/proc/self/mem' cannot be read, 0 bytes" "$(ended $?)"
fi
if [ "$(id -u)" -ne 0 ]; then
    cp examples/clean.store "$room/secret"
    chmod 000 "$room/secret"
    bin/storecheck "$room/secret" >"$room/out" 2>"$room/said"
    same "a file without permission" "1 storecheck: '$room/secret' cannot be read, 0 bytes" "$(ended $?)"
fi
same "a file where input is closed" "$(cat examples/hurt.report)" "$(bin/storecheck examples/hurt.store <&-)"

# The examples of docs/FORMAT.md: its header before zero bytes, and its line as the first of such a store and of both its tables.
bytes() { # WHAT STANDS BEFORE THE OFFSET
    for byte in $(sed -n "s/^    $1[0-9A-F][0-9A-F]:\\(\\( [0-9A-F][0-9A-F]\\)*\\).*/\\1/p" docs/FORMAT.md); do
        printf "\\$(printf '%03o' "0x$byte")"
    done
}
bytes "" >"$room/header"
bytes "line " >"$room/line"
same "how long the examples of docs/FORMAT.md are" "28 70" "$(wc -c <"$room/header") $(wc -c <"$room/line")"
head -c 560 /dev/zero | cat "$room/header" - >"$room/zero"
same "a store of zero bytes after it" "$(cat crates/storecheck/stdout)" "$(bin/storecheck "$room/zero")"
head -c 210 /dev/zero >"$room/210"
head -c 70 /dev/zero >"$room/70"
cat "$room/header" "$room/line" "$room/210" "$room/line" "$room/70" "$room/line" "$room/70" >"$room/caption"
same "the line of docs/FORMAT.md" "$(cat crates/storecheck/stdout)" "$(bin/storecheck "$room/caption")"

# A 2 by 2 store with the first bit of some bytes turned over; beside each, what document 01 with request Q-3 asks for. Line 0 begins
# at byte 28, line 1 at 98, line 2 at 168, line 3 at 238; row 0's parity line at 308, row 1's at 378, column 0's at 448, column 1's
# at 518. One bit of a line mends itself; two make it faulty.
with_bits() { # STORE OFFSET..
    cp "$1" "$room/parity"
    shift
    for at; do
        byte=$(od -An -tu1 -j "$at" -N 1 "$room/parity")
        printf "\\$(printf '%03o' $((byte ^ 1)))" | dd of="$room/parity" bs=1 seek="$at" conv=notrunc 2>/dev/null
    done
    bin/storecheck "$room/parity" 2>"$room/said"
    echo "status $?, $(wc -c <"$room/said") bytes said"
}
expected() { # CLEAN ALONE TRIAL REBUILT FAULTY PASSES ANSWER
    printf 'store 2 2\nclean %s\nalone %s\ntrial %s\nrebuilt %s\nfaulty %s\npasses %s\nanswer %s\n' "$@"
    echo "status 0, 0 bytes said"
}
for at in 308 378 448 518; do
    same "one bit of the parity line at $at" "$(expected 4 0 0 0 0 0 0)" "$(with_bits "$room/zero" $at)"
    same "two bits of the parity line at $at" "$(expected 4 0 0 0 0 0 0)" "$(with_bits "$room/zero" $at $((at + 1)))"
done
every="308 309 378 379 448 449 518 519"
same "no usable parity line" "$(expected 4 0 0 0 0 0 0)" "$(with_bits "$room/zero" $every)"
same "no usable parity line, line 0 faulty" "$(expected 3 0 0 0 1 1 11)" "$(with_bits "$room/zero" 28 29 $every)"
same "row 0 unusable: its column rebuilds line 0" "$(expected 3 0 0 1 0 1 0)" "$(with_bits "$room/zero" 28 29 308 309)"
same "column 0 unusable, a bit of row 0's" "$(expected 3 0 0 1 0 1 0)" "$(with_bits "$room/zero" 28 29 308 448 449)"
same "row 0 and column 0 unusable" "$(expected 3 0 0 0 1 1 11)" "$(with_bits "$room/zero" 28 29 308 309 448 449)"
same "lines 0 to 2 hurt alike" "$(expected 1 0 0 3 0 1 0)" "$(with_bits "$room/zero" 28 29 98 99 168 169)"
same "lines 0 to 2, row 1 unusable" "$(expected 1 0 0 3 0 2 0)" "$(with_bits "$room/zero" 28 29 98 99 168 169 378 379)"
same "all lines hurt alike" "$(expected 0 0 0 0 4 1 11)" "$(with_bits "$room/zero" 28 29 98 99 168 169 238 239 378)"
# The line of docs/FORMAT.md in line 0's place, and parity lines of zero bytes.
cat "$room/header" "$room/line" "$room/210" "$room/210" "$room/70" >"$room/foreign"
same "another line" "$(expected 4 0 0 0 0 0 12)" "$(with_bits "$room/foreign")"
same "another line, row 0 unusable" "$(expected 4 0 0 0 0 0 12)" "$(with_bits "$room/foreign" 308 309)"
same "another line, row 0 and column 0 unusable" "$(expected 4 0 0 0 0 0 0)" "$(with_bits "$room/foreign" 308 309 448 449)"
for answer in 1 2 3 4 11 12; do
    same "answer $answer in the help" 1 "$(bin/storecheck --help | grep -c "^    $answer  ")"
done
for answer in 9 13 14; do
    same "answer $answer in the help" 0 "$(bin/storecheck --help | grep -c "^    $answer ")"
done

# The store of zero bytes with place 543 of line 0 hurt, a Hamming bit: bit 0 of byte 68. The line mends itself.
{ cat "$room/header"; head -c 68 /dev/zero; printf '\001'; head -c 491 /dev/zero; } >"$room/hamming"
same "a hurt Hamming bit" "$(sed 's/^clean 4$/clean 3/; s/^alone 0$/alone 1/' crates/storecheck/stdout)" "$(bin/storecheck "$room/hamming")"

# Building, with a toolchain that only says what it would: each of its lines is shown, and its status counts.
mkdir -p "$room/tools"
copy_repository "$room/copy"
cat >"$room/tools/rt" <<'TOOL'
#!/bin/sh
echo "fn one::first: proved"
echo "rt: chose --jobs 2 for one"
[ "$* in ${PWD##*/}" = "run in storecheck" ] && [ -n "$PROVED" ] || exit 3
mkdir -p out && cp "$PROVED" out/storecheck
echo "rt: running out/storecheck; to give it other input, run that file yourself" >&2
TOOL
chmod +x "$room/tools/rt"
built() { # PROGRAM THAT THE TOOLCHAIN GIVES
    PROVED=$1 PATH=$room/tools:$PATH "$room/copy/bin/storecheck" examples/hurt.store >"$room/out" 2>"$room/said"
    echo "$? $(sed -n 's/^storecheck: //p' "$room/said" | tail -n +2 | tr '\n' ';')"
}
same "a program that cannot be built" "1 proving one;it could not be built; target/storecheck.log says why;" "$(built "")"
same "what its log has" "fn one::first: proved" "$(head -n 1 "$room/copy/target/storecheck.log")"
same "a program that is built first" "0 proving one;" "$(built "$PWD/target/bin/storecheck")"
same "the report of a program built first" "$(cat examples/hurt.report)" "$(cat "$room/out")"
same "a program that is there" "0 " "$(built "")"
for way in 'kill -9 $$' 'echo "store 4 4"; kill -9 $$' 'exit 0'; do
    printf '#!/bin/sh\n%s\n' "$way" >"$room/copy/target/bin/storecheck"
    "$room/copy/bin/storecheck" examples/hurt.store >"$room/out" 2>"$room/said"
    same "a program that ends by '$way'" "1 storecheck: the program ended without its report" "$? $(tail -n 1 "$room/said")"
done

finish storecheck
