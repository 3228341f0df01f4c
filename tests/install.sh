#!/bin/sh
# bin/install from a tree in which library and programs are built: the files and who may use them, a C program that finds them by
# pkg-config alone, both programs without the repository, the man pages, DESTDIR, and what fails.
set -u
cd "$(dirname "$0")/.." || exit 1
. tests/checks.sh
unset DESTDIR
plain_tools
nl='
'
version=$(sed -n 's/^#define SUDOKU_VERSION "\(.*\)"$/\1/p' include/sudoku.h)
prefix="$room/a prefix"

# Every file that is installed, with its mode.
files="-rw-r--r-- include/sudoku.h
-rw-r--r-- lib/libsudoku.a
-rw-r--r-- lib/pkgconfig/sudoku.pc
-rw-r--r-- libexec/sudoku/messages.sh
-rw-r--r-- share/man/man1/captions.1
-rw-r--r-- share/man/man1/storecheck.1
-rw-r--r-- share/man/man3/sudoku.3
-rwxr-xr-x bin/captions
-rwxr-xr-x bin/storecheck
-rwxr-xr-x libexec/sudoku/storecheck"
found_in() { # FOLDER
    (cd "$1" 2>/dev/null && find . -type f -exec ls -l {} + | sed 's|^\([-rwx]*\).* \./|\1 |' | LC_ALL=C sort)
}
install() { # WORDS FOR bin/install..
    bin/install "$@" >"$room/out" 2>"$room/said"
    echo $?
}

# Into a folder with a space, by a user who keeps things private; then once more over it.
same "an install" 0 "$(umask 077 && install "$prefix")"
same "its files" "$files" "$(found_in "$prefix")"
same "a folder of it" drwxr-xr-x "$(ls -ld "$prefix/lib/pkgconfig" | cut -c 1-10)"
same "what it prints" "$(echo "$files" | sed "s|^[^ ]* |$prefix/|" | LC_ALL=C sort)" "$(LC_ALL=C sort "$room/out")"
echo old >"$prefix/bin/captions"
same "an install over it" 0 "$(install "$prefix/")"
same "its files again" "$files" "$(found_in "$prefix")"
for pair in include/sudoku.h:include/sudoku.h target/staticlib/libcapi.a:lib/libsudoku.a rust/target/release/captions:bin/captions \
    bin/storecheck:bin/storecheck target/bin/storecheck:libexec/sudoku/storecheck docs/man/sudoku.3:share/man/man3/sudoku.3; do
    cmp -s "${pair%:*}" "$prefix/${pair#*:}"
    same "${pair#*:} is ${pair%:*}" 0 $?
done

# A C program in two files, one of them the man page's example, by what the pkg-config file says alone.
if command -v pkg-config >/dev/null; then
    PKG_CONFIG_PATH=$prefix/lib/pkgconfig
    export PKG_CONFIG_PATH
    same "the version" "$version" "$(pkg-config --modversion sudoku)"
    same "the prefix" "$prefix" "$(pkg-config --variable=prefix sudoku)"
    flags=$(pkg-config --cflags --libs sudoku)
else
    # Its lines for both folders are assignments in the shell too.
    eval "$(grep -e '^includedir=' -e '^libdir=' "$prefix/lib/pkgconfig/sudoku.pc")"
    flags=$(sed -n -e 's/^Cflags: //p' -e 's/^Libs: //p' "$prefix/lib/pkgconfig/sudoku.pc" | tr '\n' ' ')
fi
mkdir "$room/c"
sed -n '/^\.SH EXAMPLES/,/^\.fi/p' docs/man/sudoku.3 | sed '/^\./d; s/\\e/\\/g' >"$room/c/main.c"
printf '#include <sudoku.h>\n\nconst char *second_file(void);\n\nconst char *second_file(void)\n{\n    return sudoku_mark_text(3);\n}\n' \
    >"$room/c/second.c"
built() { # COMPILER WORDS..
    (cd "$room/c" && rm -f program && eval '"$@" -Wall -Wextra -Werror main.c second.c' "$flags" -o program && ./program)
}
same "the man page's example" "done: clean" "$(built cc -std=c99 -pedantic)"
if command -v c++ >/dev/null; then
    same "the same as C++" "done: clean" "$(built c++ -x c++)"
fi
for made in include/sudoku.h docs/man/sudoku.3 docs/man/captions.1 docs/man/storecheck.1 rust/Cargo.toml; do
    same "the version in $made" 1 \
        "$(grep -c -e "^#define SUDOKU_VERSION \"$version\"\$" -e "^version = \"$version\"\$" -e "\"caption store $version\"" "$made")"
done

# Both programs, where the folder was moved to and nothing else of the repository or its tools can be found.
moved="$room/moved"
cp -R "$prefix" "$moved"
cp examples/hurt.store examples/lost.store examples/hurt.report "$room"
alone() { # PROGRAM WORDS..
    (cd "$room" && env -i PATH="$room/plain" "$@" 2>"$room/said")
}
report=$(cat examples/hurt.report)
same "storecheck" "$report" "$(alone "$moved/bin/storecheck" hurt.store)"
same "storecheck's standard input" "$report" "$(alone "$moved/bin/storecheck" <examples/hurt.store)"
ln -s "$moved/bin/storecheck" "$room/linked"
same "storecheck through a link" "$report" "$(alone ./linked hurt.store)"
alone "$moved/bin/storecheck" none.store
same "storecheck without a file" "1 storecheck: there is no file 'none.store'" "$? $(cat "$room/said")"
same "captions check" "$(echo "$report" | tail -n 7)" \
    "$(alone "$moved/bin/captions" check --no-picture hurt.store | awk '$2 ~ /^[0-9]+$/ && NR > 1 { print $1, $2 }' | head -n 7)"
alone "$moved/bin/captions" check hurt.store >/dev/null
same "captions of a whole store" 0 $?
alone "$moved/bin/captions" check lost.store >/dev/null
same "captions of a store with lost ones" 1 $?
case $(alone "$moved/bin/captions" --version) in *"$version"*) found=$version ;; *) found=another ;; esac
same "the version of captions" "$version" "$found"

# The man pages: no warnings, and every subcommand, option and function is in them.
rendered() { # PAGE
    if command -v groff >/dev/null; then
        groff -ww -man -Tutf8 -z "$1"
    elif command -v mandoc >/dev/null; then
        mandoc -Tlint -Werror "$1"
    elif command -v man >/dev/null; then
        man --warnings -E UTF-8 -l "$1" >/dev/null
    fi 2>&1
}
for page in "$prefix"/share/man/man?/*; do
    same "warnings about ${page##*/}" "" "$(rendered "$page")"
done
plainly() { # PAGE
    sed 's/\\-/-/g' "docs/man/$1"
}
for subcommand in make check repair show change wear forecast hurt; do
    same "captions $subcommand in its page" 1 "$(plainly captions.1 | grep -c "^\.SS $subcommand\$")"
    for option in $(alone "$moved/bin/captions" $subcommand --help | grep -o -e '--[a-z][a-z-]*' | sort -u); do
        plainly captions.1 | grep -q -e "$option\\>"
        same "$option of captions $subcommand in its page" 0 $?
    done
done
for function in $(sed -n 's/^static inline .*[ *]\(sudoku_[a-z_]*\)(.*/\1/p' include/sudoku.h | grep -v '_bytes$') sudoku_bytes_needed; do
    plainly sudoku.3 | grep -q -e "^\.BI.*[ *]$function("
    same "$function in its page" 0 $?
done
for answer in $(sed -n 's/^    \(SUDOKU_[A-Z_]*\) = \([0-9]*\),\{0,1\} .*/\1:\2/p' include/sudoku.h | sed -n '1,/DIFFERS/p'); do
    plainly sudoku.3 | grep -q -e "^\.BR.* \"\{0,1\}${answer#*:} \" ${answer%:*}[\"\\\\]" -e "^\.BR ${answer#*:} \" ${answer%:*}[\"\\\\]"
    same "$answer in its page" 0 $?
done

# Below another folder: the files are there, and say that they are where they will be.
same "DESTDIR" 0 "$(DESTDIR="$room/a dest" install "$room/later")"
same "its files" "$files" "$(found_in "$room/a dest$room/later")"
same "its prefix" "prefix=$room/later" "$(head -n 1 "$room/a dest$room/later/lib/pkgconfig/sudoku.pc")"
same "the prefix itself" "" "$(ls -d "$room/later" 2>/dev/null)"
root=$PWD
same "a folder seen from here" "prefix=$room/near" \
    "$(cd "$room" && "$root/bin/install" near >"$room/out" 2>&1; head -n 1 near/lib/pkgconfig/sudoku.pc)"
same "a name that sed could take for its own" "prefix=$room/x|&1/y" \
    "$(install "$room/x|&1/y/" >/dev/null; head -n 1 "$room/x|&1/y/lib/pkgconfig/sudoku.pc")"

# Where the list of files cannot be written, they are there all the same.
bin/install "$room/unlisted" >/dev/full 2>"$room/said"
same "a full disk for the list" "1 install: all is installed, but its list cannot be written" "$? $(cat "$room/said")"
same "its files" "$files" "$(found_in "$room/unlisted")"
{
    sleep 0.3
    bin/install "$room/unread" 2>/dev/null
} | true
same "the files where nobody reads the list" "$files" "$(found_in "$room/unread")"

# What fails: nothing is installed, and one line says why.
failed() { # PREFIX
    echo "$(install "$1") $(sed 's/^install: //' "$room/said"); $(found_in "$1" | wc -l) files"
}
: >"$room/file"
same "a file in its place" "1 '$room/file/x' cannot be made; 0 files" "$(failed "$room/file/x")"
same "a file itself" "1 '$room/file' cannot be made; 0 files" "$(failed "$room/file")"
mkdir -p "$room/taken/lib"
: >"$room/taken/lib/pkgconfig"
same "a file where a folder goes" "1 '$room/taken/lib/pkgconfig' cannot be made; 1 files" "$(failed "$room/taken")"
mkdir -p "$room/full/share/man/man3/sudoku.3"
same "a folder where a file goes" "1 '$room/full/share/man/man3/sudoku.3' is a directory; 0 files" "$(failed "$room/full")"
if [ "$(id -u)" -ne 0 ]; then
    mkdir -p "$room/closed" "$room/half/bin"
    chmod 555 "$room/closed" "$room/half/bin"
    same "a folder without permission" "1 '$room/closed' cannot be written; 0 files" "$(failed "$room/closed")"
    same "one of its folders without permission" "1 '$room/half/bin' cannot be written; 0 files" "$(failed "$room/half")"
fi
same "what is left beside" "" "$(find "$room" -name '.install*')"

# Called wrongly.
for words in '' "$room/x $room/y" "--prefix=$room/x"; do
    # shellcheck disable=SC2086
    same "called with '$words'" "2 1" "$(install $words) $(wc -l <"$room/said")"
done
same "a folder without a name" "2 1" "$(install '') $(wc -l <"$room/said")"
for odd in "a\"b" "a\\b" "a\$b" "a#b" "a${nl}b"; do
    same "the folder '$odd'" "2 1" "$(install "$room/$odd") $(wc -l <"$room/said")"
done
mkdir "$room/a#c"
same "a folder seen from '$room/a#c'" 2 "$(cd "$room/a#c" && "$root/bin/install" near >"$room/out" 2>&1; echo $?)"
same "help" 0 "$(install --help)"
for place in $(echo "$files" | sed 's/.* //' | grep -v -e '/man[13]/' -e messages); do
    same "$place in the help" 1 "$(grep -c "PREFIX/$place" "$room/out")"
done

# A tree in which nothing is built, and tools that cannot.
copy_repository "$room/copy"
ln -s "$room/copy" "$room/same"
before=$(found_in "$room/copy")
for itself in "$room/copy" "$room/same/" "$room/copy/bin/.."; do
    "$room/copy/bin/install" "$itself" >"$room/out" 2>"$room/said"
    same "into the repository itself" "2 1" "$? $(wc -l <"$room/said")"
done
same "the repository then" "$before" "$(found_in "$room/copy")"
mkdir "$room/tools"
printf '#!/bin/sh\necho "rt: the library one did not build"\nexit 1\n' >"$room/tools/rt"
chmod +x "$room/tools/rt"
PATH=$room/tools:$room/plain "$room/copy/bin/install" "$room/never" >"$room/out" 2>"$room/said"
same "a build that fails" "1 install: it could not be built; target/install.log says why" "$? $(tail -n 1 "$room/said")"
same "what it was" 1 "$(grep -c '^install: the library one did not build$' "$room/said")"
[ ! -e "$room/never" ]
same "what it installs" 0 $?
PATH=$room/plain "$room/copy/bin/install" "$room/never" >"$room/out" 2>"$room/said"
same "no tools" "1 install: the toolchain's command rt is not on the path; it is needed to build the program" "$? $(cat "$room/said")"

finish install
