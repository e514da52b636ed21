# shellcheck shell=sh disable=SC2154
# A small tree of its own with the scripts of this one, to be sourced after common.sh: its two programs, echo and other, are
# written in C, and its kit is the one at hand but for an rt that compiles C and proves nothing. So everything that stands
# around a proof is tried in seconds.
tree="$work/a tree"
real=$(dirname "$(dirname "$(readlink -f "$(command -v rt)")")")

# with_kit and without_kit COMMAND..: with that kit in place of the one at hand, and with none
with_kit() { (PATH=$work/kit/bin:$PATH && export PATH && "$@"); }
without_kit() { (PATH=$work/bin && export PATH && "$@"); }

# program NAME WORD: a program that says the word and its arguments, a line each, and ? for one of more than eight bytes; with the
# argument fail, on standard error and with status 1. It asks for its arguments as a Rattle program does
program() {
    mkdir -p "$tree/crates/program_$1/src"
    cat >"$work/source" <<END
// Prints a word and its arguments. It is C.
long write(int to, const void *bytes, unsigned long count);
unsigned long rattle_arg_count(void);
long rattle_arg(unsigned long place, char *bytes, unsigned long room);
static void say(int to, const char *word, long length) {
    write(to, length < 0 ? "?" : word, length < 0 ? 1 : length);
    write(to, "\n", 1);
}
int main(void) {
    char word[8];
    unsigned long count = rattle_arg_count();
    int to = count == 2 && rattle_arg(1, word, 8) == 4 && word[0] == 'f' ? 2 : 1;
    say(to, "$2", sizeof "$2" - 1);
    for (unsigned long i = 1; i < count; i++) say(to, word, rattle_arg(i, word, 8));
    return to == 2 || rattle_arg(count, word, 8) != -1;
}
END
    mv "$work/source" "$tree/crates/program_$1/src/main.rt"
}

mkdir -p "$tree" "$work/kit/bin" "$work/bin"
ln -s /usr/bin/* /bin/* "$work/bin/" 2>/dev/null # all commands but two
rm -f "$work/bin/cc" "$work/bin/rt"
for entry in "$real"/* "$real/bin/rattle-link"; do
    [ "${entry##*/}" = bin ] || ln -s "$entry" "$work/kit/${entry#"$real"/}"
done
cp -R trivsome native "$tree/"
touch "$tree/crates.txt"
program echo one
program other two

# rt run in a crate's folder as native/build sees it. Each run leaves a line in the file runs of the tree's top, one that compiles
# in compiled, and one beside another in beside.
cat >"$work/kit/bin/rt" <<'END'
#!/bin/sh
set -u
[ "$*" = run ] || exit 2
kit=${0%/bin/rt} crate=${PWD##*/} top=../..
mkdir -p out
if mkdir $top/target/busy; then trap 'rmdir $top/target/busy' EXIT; else echo "$crate" >>$top/beside; fi
echo "$crate" >>$top/runs
cksum <src/main.rt >out/new
if ! cmp -s out/new "out/$crate.stamp"; then
    "$kit/toolchain/bin/clang" --target=x86_64-unknown-linux-gnu --no-default-config -O1 -fPIE -c -x c src/main.rt -o "out/$crate.o" &&
        "$kit/bin/rattle-link" --target x86_64-unknown-linux-gnu --toolchain "$kit/toolchain" -o "out/$crate" "out/$crate.o" \
            "$kit/c/libos_c.a" "$kit/c/liblibc_c.a" || exit 1
    mv out/new "out/$crate.stamp"
    echo "$crate" >>$top/compiled
    sleep "${SLOW:-0}"
fi
echo "rt: running out/$crate; to give it other input, run that file yourself" >&2
"out/$crate"
END
chmod +x "$work/kit/bin/rt"
