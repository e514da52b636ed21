#!/bin/sh
# The programs as they are run: a file, arguments, a pipe that gives small pieces, a terminal's few bytes, a full disk, a folder for
# input, a signal, and a name that is no program.
set -u
CDPATH='' cd -- "$(dirname -- "$0")" || exit 2
part=runs
# shellcheck source=tests/trivsome/common.sh
. ./common.sh
line=$(stored listing)/stdin

for name in listing messages refusals gaps board numbers; do
    expect 0 ./trivsome $name <"$(stored $name)/stdin" >"$work/file" 2>"$work/said"
    cmp "$work/file" "$(stored $name)/stdout" || differs "$name prints something else"
done

# table reads nothing: its standard input may be closed
expect 0 ./trivsome table <&- >"$work/file" 2>"$work/said"
cmp "$work/file" "$(stored table)/stdout" || differs "table prints something else"

# gaps takes one argument; to any other it says so and does nothing else
expect 0 ./trivsome gaps give-up <"$(stored gaps)/stdin" >"$work/file" 2>"$work/said"
cmp "$work/file" tests/gaps/give-up || differs "gaps give-up prints something else"
refuses() { # ARGUMENT..
    expect 1 ./trivsome gaps "$@" <samples/capture >"$work/file" 2>"$work/said"
    echo 'gaps: the only argument is give-up' | cmp - "$work/said" || differs "gaps $* says something else: $(cat "$work/said")"
    [ ! -s "$work/file" ] || differs "gaps $* prints something"
}
for word in give-u give-ups Give-up -- ''; do refuses "$word"; done
refuses give-up give-up
refuses give-up ''

# board and table take none, not even the word for another exchange's line
for name in board table; do
    expect 1 ./trivsome $name derivatives-2015 <samples/capture >"$work/file" 2>"$work/said"
    echo "$name: takes no argument" | cmp - "$work/said" || differs "$name says something else: $(cat "$work/said")"
    [ ! -s "$work/file" ] || differs "$name derivatives-2015 prints something"
done

listing() { ./trivsome listing 2>"$work/said"; }

# pieces of 1 to 4,096 bytes
head -c 70000 "$line" >"$work/part"
listing <"$work/part" >"$work/whole"
for size in 1 1021 4096; do
    dd if="$work/part" bs=$size 2>/dev/null | listing >"$work/pipe"
    cmp "$work/pipe" "$work/whole" || differs "pieces of $size bytes are listed otherwise"
done

printf '' | listing >"$work/empty"
printf 'at,answer,bytes,format,seq\ntotal,0,0,0\n' | cmp - "$work/empty" || differs "no input is listed otherwise"

expect 1 listing </ >"$work/none"
grep -q total "$work/none" && differs "a total stands behind input that could not be read"

# no room for the output, for what is said of it, and for temporary files. What cannot be said is still seen by the status
if mount_small full 64k; then
    echo "trivsome runs: on a full file system"
    cat /dev/zero >"$work/full/zeros" 2>/dev/null
else
    echo "trivsome runs: no file system can be mounted here; /dev/full, and a folder for temporary files that cannot be written"
    mkdir -p "$work/full" && ln -s /dev/full "$work/full/out" && ln -s /dev/full "$work/full/said" && chmod 555 "$work/full"
fi
for name in listing messages refusals gaps board; do
    expect 1 env TMPDIR="$work/full" ./trivsome $name <"$(stored $name)/stdin" >"$work/full/out" 2>"$work/full/said"
    expect 1 ./trivsome $name <"$(stored $name)/stdin" >"$work/full/out" 2>"$work/said"
    says "$name: cannot write standard output" "$work/said"
    expect 1 ./trivsome $name <"$(stored $name)/stdin" >"$work/full/out" 2>&-
done
expect 1 ./trivsome table >"$work/full/out" 2>"$work/said"
says "table: cannot write standard output" "$work/said"

# those whose standard input is our pipe
readers() { for process in /proc/[0-9]*; do [ "$(readlink "$process/fd/0")" != "$work/pipe" ] || echo "${process#/proc/}"; done; }

all_gone() { [ -z "$(readers)" ]; }

# a signal to the script is one to the program, and leaves nothing behind; a gate under nohup hands down HUP as one to be ignored
rm -f "$work/pipe"
mkdir "$work/temporary" && mkfifo "$work/pipe" && exec 8<>"$work/pipe"
for signal in TERM HUP; do
    env --default-signal=$signal TMPDIR="$work/temporary" ./trivsome listing <"$work/pipe" >"$work/file" 2>&1 8>&- &
    script=$!
    sleep 1
    ! all_gone || differs "nothing reads the pipe: $(cat "$work/file")"
    kill -s $signal $script
    wait $script 2>"$work/said"
    status=$?
    [ $status -gt 128 ] || differs "status $status after $signal"
    soon all_gone
    for left in $(readers); do
        differs "process $left is left after $signal"
        kill -s KILL "$left"
    done
    [ -z "$(ls "$work/temporary")" ] || differs "$signal leaves $(ls "$work/temporary") behind"
done
exec 8>&-

expect 2 ./trivsome nonsense </dev/null 2>"$work/said"
says "no program is called 'nonsense'" "$work/said"
expect 2 ./trivsome ../trivsome </dev/null 2>"$work/said"
expect 2 ./trivsome library nonsense 2>"$work/said"
expect 2 ./trivsome >"$work/none" 2>"$work/said"
says '^Usage: ' "$work/said"
[ ! -s "$work/none" ] || differs "without a name something is printed"
for word in --help -h; do
    expect 0 ./trivsome $word >"$work/help" 2>"$work/said"
    says '^Usage: ' "$work/help"
    [ ! -s "$work/said" ] || differs "$word says something on standard error"
done

# each program is in the help once; those of the tests are behind, by name alone
for name in listing messages refusals gaps board table; do
    [ "$(sed '/tests/,$d' "$work/help" | grep -c "^  $name ")" -eq 1 ] || differs "--help does not name $name"
done
for name in numbers worked; do
    ! sed '/tests/,$d' "$work/help" | grep -q "^  $name" || differs "--help has $name beside the programs"
    grep -qx "  $name" "$work/help" || differs "--help promises something of $name"
done
ended
