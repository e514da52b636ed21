# shellcheck shell=sh disable=SC2154
# How native/build makes code, once it has said what: sourced there, with the names of that script.
#
# The kit makes code for x86-64 alone: a program as rt run leaves it in its crate's out/, and the archive of the crate trivsome.
# Where the gate has passed and nothing has changed since, target/native/gate is newer than all sources. What rt ci built then is
# taken: a program as it is, and the libraries for the archive, which rt would else prove once more.

# where to read why something failed
why() { if [ -s "$log" ]; then echo "$log says why"; else echo "nothing could be logged"; fi; }

unproved() { # STATUS
    fail 1 "$crate is not proved or could not be compiled (status $1 of rt): $(why)"
}

proving() { echo "native/build: proving and compiling $crate" >&2; }

passed_the_gate() { is_newest "$native/gate"; }

# rt proves a program, compiles, links and runs it, on no input, and its status is the program's then. What it says before it
# runs one tells whether there is one.
run_once() {
    proving
    (cd "$here/crates/$crate" && rt run) </dev/null >>"$log" 2>&1
    status=$?
    grep -qxF "rt: running out/$crate; to give it other input, run that file yourself" "$log" || unproved $status
}

# a program beside the kit's loader and C library, with native/start under the program's name
make_program() {
    passed_the_gate && [ -f "$here/crates/$crate/out/$crate" ] || run_once
    mkdir "$work/x86_64" && cp "$here/crates/$crate/out/$crate" "$work/x86_64/$name" && chmod 755 "$work/x86_64/$name" ||
        fail 3 "cannot write in $work"
    for part in "$tools"/lib/*.so.*; do cp "$part" "$work/x86_64/" || fail 3 "cannot write in $work"; done
    mkdir -p "${made%/*}/x86_64" && mv "$work"/x86_64/* "${made%/*}/x86_64/" && cp "$here/native/start" "$work/made" ||
        fail 3 "cannot write in ${made%/*}"
}

make_library() {
    proving
    if passed_the_gate && [ "$(cat "$native/gate")" = libraries ]; then
        archive_of_the_gate
    else
        (cd "$here/crates/$crate" && rt lib) </dev/null >>"$log" 2>&1 || unproved $?
    fi
    cp "$here/crates/$crate/out/lib$crate.a" "$work/made" || fail 3 "cannot write in $work"
}

# what rt lib does, but over the libraries that rt ci left. They hold the statements of what was proved without the proofs, which
# is enough to prove what stands on them; rt lib would make libraries with proofs first
archive_of_the_gate() {
    set -- --crate-name "$crate" src/lib.rt --extern "std=$kit/rlibs/std.rlib" -L "dependency=$kit/rlibs"
    for dep in $(sed -n "s/^$crate staticlib: *//p" "$here/crates.txt"); do
        set -- "$@" --extern "$dep=$here/crates/$dep/out/rlib/$dep.rlib"
    done
    for libraries in "$here"/crates/*/out/rlib; do set -- "$@" -L "dependency=$libraries"; done
    set -- "$@" --antt-project "$kit/rattle/logic/antt-project.json" --logic-built "$kit/logic_built" --jobs 2 --links "$crate=" \
        --crate-type staticlib --toolchain "$tools" --backend llvm -o "out/lib$crate.a"
    (cd "$here/crates/$crate" && mkdir -p out && "$kit/bin/rattle" build "$@") </dev/null >>"$log" 2>&1 || unproved $?
}
