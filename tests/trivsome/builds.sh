#!/bin/sh
# How programs are built: arguments and status of a program with a C compiler at hand and without, a source that changes, what the
# gate has built, builds at once, a tree that cannot be written, links, another machine, and what is built without the kit.
set -u
CDPATH='' cd -- "$(dirname -- "$0")" || exit 2
part=builds
# shellcheck source=tests/trivsome/common.sh
. ./common.sh
# shellcheck source=tests/trivsome/tree.sh
. tests/trivsome/tree.sh

# how often rt ran or compiled since count_anew: so_often asks, counts holds it to a number
count_anew() { true >"$tree/runs" && true >"$tree/compiled"; }
so_often() { # FILE NUMBER
    [ "$(wc -l <"$tree/$1")" -eq "$2" ]
}
counts() { so_often "$@" || differs "$(wc -l <"$tree/$1") lines instead of $2 in $1: $(cat "$tree/$1")"; }

count_anew
# a program takes no C compiler
# shellcheck disable=SC2031
for path in "$work/bin" "$PATH"; do
    rm -rf "$tree/target" "$tree"/crates/*/out
    expect 0 with_kit env PATH="$work/kit/bin:$path" "$tree/trivsome" echo 'a b' '' '*' -x "it's" 8_bytes_ 9_bytes__ \
        >"$work/file" 2>"$work/said" </dev/null
    printf '%s\n' one 'a b' '' '*' -x "it's" 8_bytes_ '?' | cmp - "$work/file" || differs "arguments do not arrive: $(cat "$work/said")"
    expect 1 with_kit "$tree/trivsome" echo fail >"$work/file" 2>"$work/said"
    printf 'one\nfail\n' | cmp - "$work/said" || differs "what a program says on standard error is lost"
    cmp "$tree/native/start" "$tree/target/native/echo" || differs "the program does not take along what runs it"
    # what is built and up to date needs no kit
    expect 0 without_kit "$tree/trivsome" echo >"$work/file"
    expect 3 without_kit "$tree/trivsome" other >"$work/file" 2>"$work/said"
    says 'there is no command rt' "$work/said"
done
counts compiled 2

# on a machine for which the kit makes no code that is said, and nothing is proved
mkdir "$work/other" && printf '#!/bin/sh\necho aarch64\n' >"$work/other/uname" && chmod +x "$work/other/uname"
count_anew
expect 3 with_kit env PATH="$work/other:$work/kit/bin:$PATH" "$tree/trivsome" other >"$work/file" 2>"$work/said"
says 'has nothing for this machine, aarch64' "$work/said"
counts runs 0

# a link to the script, and a CDPATH at which cd speaks
ln -s "$tree/trivsome" "$work/link" && ln -s link "$work/second"
for script in "$work/link" "$work/second"; do
    expect 0 with_kit "$script" echo >"$work/file" 2>"$work/said"
    echo one | cmp - "$work/file" || differs "a link to the script does not work: $(cat "$work/said")"
done
(
    cd "$work" && CDPATH=$work && export CDPATH
    with_kit sh 'a tree/trivsome' echo
    with_kit sh 'a tree/native/build' program echo
) >"$work/file" 2>"$work/said"
printf 'one\n%s\n' "$tree/target/native/echo" | cmp - "$work/file" || differs "CDPATH misleads the script: $(cat "$work/said")"

# a source that is touched: rt runs again and has nothing to compile
count_anew
sleep 1
touch "$tree/crates/program_echo/src/main.rt"
expect 0 with_kit "$tree/trivsome" echo >"$work/file" 2>"$work/said"
counts runs 1
counts compiled 0

# what the gate has proved and built is taken as it is, until a source changes
count_anew
touch "$tree/target/native/gate"
rm "$tree/target/native/echo"
expect 0 with_kit "$tree/trivsome" echo >"$work/file" 2>"$work/said"
echo one | cmp - "$work/file" || differs "what the gate has built does not run: $(cat "$work/said")"
[ ! -s "$work/said" ] || differs "it is proved once more behind the gate: $(cat "$work/said")"
counts runs 0
sleep 1
touch "$tree/crates/program_echo/src/main.rt"
expect 0 with_kit "$tree/trivsome" echo >"$work/file" 2>"$work/said"
counts runs 1

# a source that changes during the build is built at the next run
count_anew
program echo during
with_kit env SLOW=2 "$tree/trivsome" echo >"$work/file" 2>"$work/said" &
soon so_often compiled 1
program echo after
wait
expect 0 with_kit "$tree/trivsome" echo >"$work/file" 2>"$work/said"
echo after | cmp - "$work/file" || differs "a source that changes during the build is not built: $(cat "$work/file")"
counts compiled 2

# builds at once wait for each other, and say for whom; one of them builds
count_anew
program echo once
slowly() { with_kit env SLOW=3 "$tree/trivsome" "$1" >"$work/file$2" 2>"$work/said$2" || echo "status $?" >>"$work/file$2"; } # NAME RUN
for run in 1 2 3; do slowly echo $run & done
slowly other 4 &
wait
printf 'once\nonce\nonce\ntwo\n' >"$work/expected"
cat "$work"/file[1-4] | cmp - "$work/expected" || differs "of builds at once one is wrong: $(cat "$work"/file[1-4] "$work"/said[1-4])"
[ ! -f "$tree/beside" ] || differs "rt runs beside another: $(cat "$tree/beside")"
counts compiled 2
waiting=$(cat "$work"/said[1-4] | grep -c 'waiting for another build, process [0-9]')
[ "$waiting" -eq 3 ] || differs "$waiting wait instead of 3: $(cat "$work"/said[1-4])"

# a build that is killed holds up no other
count_anew
program echo killed
with_kit env SLOW=60 "$tree/trivsome" echo >"$work/file" 2>"$work/said" &
soon so_often compiled 1
kill -s KILL "$(cat "$tree/target/native/.lock")"
for process in /proc/[0-9]*; do
    case $(readlink "$process/cwd") in "$tree"/*) kill -s KILL "${process#/proc/}" ;; esac
done
wait
rm -rf "$tree/target/busy"
expect 0 with_kit timeout 30 "$tree/trivsome" echo >"$work/file" 2>"$work/said"
echo killed | cmp - "$work/file" || differs "a killed build holds up the next: $(cat "$work/said")"

# a source that does not compile: the log says why, and what was built before is not run
echo nonsense >"$tree/crates/program_echo/src/main.rt"
expect 3 with_kit "$tree/trivsome" echo >"$work/file" 2>"$work/said"
[ ! -s "$work/file" ] || differs "what was built of other sources is run"
log=$(sed -n 's/.*: \(.*\) says why$/\1/p' "$work/said")
grep -q nonsense "$log" || differs "the log that is named does not say why: $(cat "$work/said")"

# a tree that cannot be written, without target/ and with an empty one
program echo kept
if mount_small still 8m; then
    echo "trivsome builds: in a file system that is read only"
    still() { mount -o remount,ro "$work/still"; }
    as=''
else
    echo "trivsome builds: no file system can be mounted here; in folders without write permission"
    still() { chmod -R a-w "$work/still"; }
    as=nobody
fi
for target in '' target target/native; do
    rm -rf "$work/still/tree"
    mkdir -p "$work/still/tree/$target"
    for source in trivsome native crates crates.txt; do cp -R "$tree/$source" "$work/still/tree/"; done
    still
    expect 3 with_kit $as "$work/still/tree/trivsome" echo >"$work/file" 2>"$work/said"
    says "cannot write .*$work/still/tree/target" "$work/said"
    ! grep -q 'says why' "$work/said" || differs "a log is named that was not written: $(cat "$work/said")"
    mount -o remount,rw "$work/still" 2>/dev/null || chmod -R u+w "$work/still"
done
ended
