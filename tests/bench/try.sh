#!/bin/sh
# Tries the timing of the calls: that it builds, finds both sides the same, ends with 0, and prints a ratio for everything that
# it is to time. How fast either side is, is not judged. Prints what is missing, and ends with status 1 if anything is.
set -u
CDPATH='' cd -- "$(dirname -- "$0")/../.." || exit 2
work=$(mktemp -d) || exit 2
trap 'rm -rf "$work"' EXIT
wrong=0

differs() {
    echo "bench: $*"
    wrong=1
}

bench/run.py --quick calls >"$work/table" || differs "bench/run.py --quick calls ends with status $?"
[ "$(awk 'length > 110' "$work/table")" = "" ] || differs "a line has more than 110 columns"

# part NAMES..: behind the heading of a part there is a line with two times and their ratio for each name
part() {
    heading=$1
    shift
    for name in "$@"; do
        sed -n "/^$heading:/,/^\$/p" "$work/table" |
            grep -Eq "^  $name  +[-0-9]+ +[0-9]+\.[0-9] +[0-9]+\.[0-9] +[0-9]+\.[0-9][0-9]( +[0-9]+ +[0-9]+)?\$" ||
            differs "no ratio for '$name' under '$heading'"
    done
}

for way in reading writing; do
    part $way 'five, text of 8' 'five, text of 60' 'six, no pairs' 'six, 9 pairs' 'six, 11 pairs' 'six, any pairs' \
        'six, the trade alone' 'twelve, 10 slots' nineteen
done
part refused 'six, 9 pairs, first digit bad' 'six, 9 pairs, last digit bad' 'twelve, 10 slots, last digit bad'
part 'the answer alone' 'six, 9 pairs' 'six, 9 pairs, check byte wrong' 'noise, at each of its bytes'
part arrivals 'in order' 'with gaps' 'half of them late' 'in order, 64 runs open' 'repeats, 64 runs open' 'refused with 22' \
    'in order, above a floor' 'in order, a floor and 63 runs open' 'late, at or below the floor' 'give up and go on'
part board 'taken, any of 256 stocks' 'the same, any pairs' 'the same, the trade alone' 'the same, codes that begin alike' \
    "taken, the first row's stock" "taken, the last row's stock" 'refused with 52' 'asked for, any of 256 codes'
part capture '504 bytes, until it is full' '504 bytes, the first' '1 byte, until it is full' '1 byte, the first' \
    'looked over, full of 504 bytes' 'looked over, full of 1 byte' 'looked over, fresh' 'read at a place, full'
part walk 'six, 9 pairs, 2 MB'
part 'index values' 'I060 of 29 bytes, read' 'I064 of 34 bytes, read' 'I060 of 29 bytes, the answer alone' 'I060 of 29 bytes, written' \
    'I064 of 34 bytes, written' 'I060 of 29 bytes, walked'
part digits 'a byte, by the call' 'a byte, by the table taken once' 'the table filled'
bench/run.py nonsense >"$work/said" 2>&1
[ $? -eq 2 ] || differs "an unknown part is not refused"

if [ "$wrong" -eq 0 ]; then echo "bench: as expected"; else cat "$work/table"; fi
exit "$wrong"
