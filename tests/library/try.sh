#!/bin/sh
# Tries the library as its users in C and C++ do: builds the archive, compiles the header, the examples and the tests of the calls,
# and compares what the examples print with what a program in Python makes of the same files. Prints what differs, and ends with
# status 1 if anything did.
set -u
CDPATH='' cd -- "$(dirname -- "$0")/../.." || exit 2
work=$(mktemp -d) || exit 2
trap 'rm -rf "$work"' EXIT
wrong=0

differs() {
    echo "library: $*"
    wrong=1
}

# expect STATUS COMMAND..: the command's status
expect() {
    wanted=$1
    shift
    "$@"
    got=$?
    [ "$got" -eq "$wanted" ] || differs "status $got instead of $wanted: $*"
}

# compiled NAME COMMAND..: makes $work/NAME of a source
compiled() {
    program=$1
    shift
    "$@" -Wall -Wextra -Werror -pedantic -O2 -Iinclude -o "$work/$program" "$archive" || { differs "it does not compile: $*"; exit 1; }
}

# tried COMMAND..: compiles a test and runs it, and does both again with a check of what C and C++ leave undefined, if there is one
undefined="-fsanitize=undefined -fno-sanitize-recover=undefined"
tried() {
    compiled test "$@"
    expect 0 "$work/test"
    "$1" $undefined -o "$work/none" "$work/none.c" 2>"$work/said" || return
    compiled test "$@" $undefined
    expect 0 "$work/test"
}

command -v cc >/dev/null || { differs "there is no C compiler, no command cc"; exit 1; }
./trivsome library >"$work/said" || { differs "it could not be built"; exit 1; }
archive=$(sed -n 's/^archive //p' "$work/said")
header=$(sed -n 's/^header  //p' "$work/said")
[ -f "$archive" ] && [ -f "$header" ] || differs "trivsome library names files that are not there"

# a second time nothing is built
touch "$work/before"
[ "$(native/build library 2>&1)" = "$archive" ] || differs "a second build says something else than the archive's path"
[ -z "$(find "$archive" -newer "$work/before")" ] || differs "the archive is built again though nothing has changed"

echo 'int main() { return 0; }' >"$work/none.c"
cc -std=c11 -pedantic -Wall -Wextra -Werror -fsyntax-only -x c "$header" || differs "the header is not C11"
tried cc -std=c11 tests/library/calls.c
tried cc -std=c11 tests/library/bad_halves.c
tried cc -std=c11 tests/library/captures.c
tried cc -std=c11 tests/library/index.c
compiled steps cc -std=c11 tests/library/steps.c
"$work/steps"
case $? in
0) ;;
3) echo "library: LEFT OUT, no program can be run by steps here: an append cut after any instruction" ;;
*) differs "an append that is cut after some instruction leaves something else" ;;
esac
if command -v c++ >/dev/null; then
    c++ -std=c++11 -pedantic -Wall -Wextra -Werror -fsyntax-only -x c++ "$header" || differs "the header is not C++"
    tried c++ -std=c++11 tests/library/vectors.cc
fi

for example in quotes board; do
    compiled $example cc -std=c11 examples/$example.c
    expect 0 "$work/$example" samples/capture >"$work/out"
    cmp "$work/out" tests/library/$example || differs "$example prints something else of samples/capture"
    for name in listing messages refusals gaps board; do
        line=$(python3 tests/reference/stored.py $name)/stdin
        python3 tests/library/make.py $example $line >"$work/expected" || differs "tests/library/make.py failed"
        expect 0 "$work/$example" $line >"$work/out" 2>"$work/said"
        cmp "$work/out" "$work/expected" || differs "$example prints something else of $line"
    done
    expect 2 "$work/$example" >"$work/out" 2>"$work/said"
    case $(cat "$work/said") in "usage: $example FILE"*) ;; *) differs "without a file $example does not say its usage" ;; esac
    [ ! -s "$work/out" ] || differs "without a file $example prints something"
    expect 2 "$work/$example" samples/capture samples/capture samples/capture 2>"$work/said"
    expect 1 "$work/$example" "$work/missing" 2>"$work/said"
    grep -q "$work/missing" "$work/said" || differs "a file that is not there is not named by $example"
    expect 1 "$work/$example" / 2>"$work/said"
done
expect 2 "$work/quotes" samples/capture samples/capture 2>"$work/said"

# one stock, one that has no quote, one that is no code; and a board that has no row for all stocks
expect 0 "$work/board" samples/capture 1101 >"$work/out"
[ "$(cat "$work/out")" = "$(grep '^1101 ' tests/library/board)" ] || differs "board prints another stock than the one that is asked for"
expect 1 "$work/board" samples/capture 1102 >"$work/out" 2>"$work/said"
[ "$(cat "$work/said")" = "board: no quote of 1102" ] && [ ! -s "$work/out" ] || differs "a stock without a quote is not said to be one"
expect 1 "$work/board" samples/capture 000000 >"$work/out" 2>"$work/said"
expect 2 "$work/board" samples/capture 1101000 2>"$work/said"
python3 tests/library/make.py many >"$work/many" && python3 tests/library/make.py board "$work/many" >"$work/expected" ||
    differs "tests/library/make.py failed"
expect 0 "$work/board" "$work/many" >"$work/out" 2>"$work/said"
cmp "$work/out" "$work/expected" || differs "board prints something else of more stocks than it has rows"
[ "$(cat "$work/said")" = "board: 88 quotes are of stocks that found no row" ] || differs "quotes that found no row are not counted"
python3 tests/library/make.py quotes "$work/many" >"$work/expected" || differs "tests/library/make.py failed"
grep -q ' levels not shown$' "$work/expected" || differs "there is no quote whose levels are not shown"
expect 0 "$work/quotes" "$work/many" >"$work/out"
cmp "$work/out" "$work/expected" || differs "quotes prints something else of quotes whose levels are not shown"

./trivsome --help | grep -q 'trivsome library' || differs "--help does not name the library"

# what fails, fails loudly
expect 2 native/build library nonsense 2>"$work/said"
expect 2 native/build nonsense 2>"$work/said"
mkdir "$work/bin" && ln -s "$(command -v dirname)" "$work/bin/" # a machine without the kit
expect 3 env PATH="$work/bin" /bin/sh native/build library 2>"$work/said"
grep -q 'there is no command rt' "$work/said" || differs "a missing kit is not named"

[ "$wrong" -eq 0 ] && echo "library: as expected"
exit "$wrong"
