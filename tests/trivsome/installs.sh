#!/bin/sh
# What ./trivsome install leaves: programs and library that need no kit, for everybody, in a folder of any name.
set -u
CDPATH='' cd -- "$(dirname -- "$0")" || exit 2
part=installs
# shellcheck source=tests/trivsome/common.sh
. ./common.sh
# shellcheck source=tests/trivsome/tree.sh
. tests/trivsome/tree.sh
top=$PWD

# the programs in FOLDER do what they do here, for nobody too, and the script speaks of nothing that is not there
programs_of() { # FOLDER
    for name in listing messages refusals gaps board; do
        expect 0 without_kit nobody "$1/bin/trivsome" $name <"$(stored $name)/stdin" >"$work/file" 2>"$work/said"
        cmp "$work/file" "$(stored $name)/stdout" || differs "$1: $name prints something else: $(cat "$work/said")"
    done
    expect 0 without_kit nobody "$1/bin/trivsome" gaps give-up <"$(stored gaps)/stdin" >"$work/file" 2>"$work/said"
    cmp "$work/file" tests/gaps/give-up || differs "$1: gaps give-up prints something else: $(cat "$work/said")"
    expect 0 without_kit nobody "$1/bin/trivsome" table </dev/null >"$work/file" 2>"$work/said"
    cmp "$work/file" "$(stored table)/stdout" || differs "$1: table prints something else: $(cat "$work/said")"
    expect 0 without_kit nobody "$1/bin/trivsome" messages <samples/capture >"$work/file"
    expect 1 without_kit nobody "$1/bin/trivsome" listing </ >"$work/file" 2>"$work/said"
    expect 0 without_kit nobody "$1/bin/trivsome" --help >"$work/help"
    ./trivsome --help | sed '/^trivsome library/,$d' | diff - "$work/help" | grep '^<' && differs "$1: --help has other programs"
    ! grep -q 'install FOLDER\|^  numbers' "$work/help" || differs "$1: --help promises what is not there"
    for name in nonsense numbers programs ../../bin/trivsome install; do
        expect 2 without_kit "$1/bin/trivsome" $name </dev/null 2>"$work/said"
    done
    expect 2 without_kit "$1/bin/trivsome" 2>"$work/said"
}

# a program in C finds the library in FOLDER by pkg-config
library_of() { # FOLDER
    without_kit "$1/bin/trivsome" library >"$work/said" || differs "$1: trivsome library ends with status $?"
    for file in "$(sed -n 's/^archive //p' "$work/said")" "$(sed -n 's/^header  //p' "$work/said")"; do
        [ -f "$file" ] || differs "$1: trivsome library names a file that is not there: $file"
    done
    if ! command -v pkg-config >/dev/null || ! command -v cc >/dev/null; then
        echo "trivsome installs: LEFT OUT, there is no command pkg-config or cc"
        return
    fi
    words=$(PKG_CONFIG_PATH=$1/lib/pkgconfig pkg-config --cflags --libs trivsome) || differs "$1: pkg-config does not find it"
    eval "cc -std=c11 -O2 -o '$work/quotes' examples/quotes.c $words" || differs "$1: examples/quotes.c does not compile"
    "$work/quotes" samples/capture | cmp - tests/library/quotes || differs "$1: the quotes of samples/capture are printed otherwise"
}

# all may read what is in FOLDER, and run what is to be run; nothing half written is left
rights_of() { # FOLDER
    find "$1" ! -perm -444 >"$work/file"
    find "$1" -type d ! -perm -111 >>"$work/file"
    [ ! -s "$work/file" ] || differs "not for everybody: $(cat "$work/file")"
    [ -z "$(find "$1" -name '*.[0-9]*[0-9]')" ] || differs "files are left: $(find "$1" -name '*.[0-9]*[0-9]')"
}

expect 0 ./trivsome install "$work/plain" >"$work/said"
[ -x "$work/plain/bin/trivsome" ] || { differs "nothing is installed"; ended; }
programs_of "$work/plain"
library_of "$work/plain"

# a folder named from where one stands, with spaces, under a strict umask; and moved elsewhere later
(cd "$work" && umask 077 && "$top/trivsome" install 'a place/of mine') >"$work/said" || differs "status $? of a folder with spaces"
rights_of "$work/a place"
mv "$work/a place" "$work/another place"
programs_of "$work/another place/of mine"
library_of "$work/another place/of mine"

# put in place once more while a program runs
mkfifo "$work/pipe" && exec 8<>"$work/pipe"
"$work/plain/bin/trivsome" listing <"$work/pipe" >"$work/file" 8>&- &
head -c 1000 "$(stored listing)/stdin" >&8
expect 0 ./trivsome install "$work/plain" >"$work/said"
tail -c +1001 "$(stored listing)/stdin" >&8
exec 8>&-
wait
cmp "$work/file" "$(stored listing)/stdout" || differs "a program that runs is disturbed"
rights_of "$work/plain"

# the programs take along what runs them
mkdir -p "$tree/bindings/rust" && cp -R include "$tree/" && cp bindings/rust/Cargo.toml "$tree/bindings/rust/"
mkdir -p "$tree/target/native" && touch "$tree/target/native/libtrivsome.a"
(PATH=$work/bin && with_kit "$tree/trivsome" install "$work/along") >"$work/file" 2>"$work/said" ||
    differs "status $? without a C compiler: $(cat "$work/said")"
rights_of "$work/along"
mv "$tree" "$work/gone" && rm -r "$work/kit"
expect 0 without_kit nobody "$work/along/bin/trivsome" echo 'a b' >"$work/file" 2>"$work/said"
printf 'one\na b\n' | cmp - "$work/file" || differs "the programs are not installed: $(cat "$work/said")"
expect 1 without_kit nobody "$work/along/bin/trivsome" other fail 2>"$work/said"

# what cannot be done fails loudly
mkdir "$work/not ours" && chmod 555 "$work/not ours"
for folder in "$work/not ours" "$work/not ours/more"; do
    expect 3 nobody ./trivsome install "$folder" >"$work/file" 2>"$work/said"
    says "the folder $folder" "$work/said"
done
if mount_small full 64k; then
    expect 3 ./trivsome install "$work/full" >"$work/file" 2>"$work/said"
    says "the folder $work/full" "$work/said"
    [ ! -e "$work/full/bin/trivsome" ] || differs "a script stands in a folder that had no room for programs"
else
    echo "trivsome installs: LEFT OUT, a full file system, since none can be mounted here"
fi
expect 2 ./trivsome install 2>"$work/said"
expect 2 ./trivsome install '' 2>"$work/said"
ended
