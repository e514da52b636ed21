# shellcheck shell=sh
# What .ci/run and .ci/changed share: how a test is counted, and every test but the prover's own. Sourced at the repository's
# top, by a script that says how many FRAMES the comparisons take and defines
#   wanted PATTERN    whether to run the tests that hang on paths which begin so (one or more, with | between them)
passed=0 failed=0

# test_that NAME COMMAND..: one test more, passed or failed
test_that() {
    name=$1
    shift
    if "$@"; then passed=$((passed + 1)); echo "passed: $name"; else failed=$((failed + 1)); echo "FAILED: $name"; fi
}

# test_on PATTERN NAME COMMAND..: the same where it is wanted
test_on() {
    pattern=$1
    shift
    if wanted "$pattern"; then test_that "$@"; else echo "left out: $1"; fi
}

# the kit at hand, and the one that this tree was last proved with
say_kit() {
    at_hand=$(rt version) proved_with=$(cat .ci/kit)
    echo "the kit at hand:             $at_hand"
    echo "proved last with, .ci/kit:   $proved_with"
    if [ "$at_hand" != "$proved_with" ]; then
        echo "ANOTHER KIT than the one that this tree was last proved with; if all passes, its version belongs in .ci/kit"
    fi
}

# cargo_test FOLDER, and cargo_run FOLDER PROGRAM WORDS..
cargo_test() { cargo test --quiet --offline --manifest-path "$1/Cargo.toml"; }
cargo_run() {
    folder=$1 program=$2
    shift 2
    cargo run --quiet --release --offline --manifest-path "$folder/Cargo.toml" --bin "$program" -- "$@"
}

# whether each .rt and .antt file of the crates stands as rt fmt lays it out
laid_out() {
    kit=$(dirname "$(dirname "$(readlink -f "$(command -v rt)")")")
    find crates -path 'crates/*/out' -prune -o \( -name '*.rt' -o -name '*.antt' \) -print0 | xargs -0 "$kit/bin/rattle" fmt --check
}

# before anything is proved: each takes a second or less
quick_tests() {
    test_that "sources are in the formatter's layout" laid_out
    test_that "docs/PROMISES.md says what is there" python3 .ci/promises
    for maker in tests/*/make.py; do
        [ -f "$maker" ] || continue
        test_that "$maker makes the stored input and output" python3 "$maker" --check
    done
}

# once all is proved: the programs and the library as their users do, and the second program
user_tests() {
    programs="crates/line_feed/|crates/lines/|crates/stock_texts/|$(for main in crates/*/src/main.rt; do printf '%s/|' "${main%/src/main.rt}"; done)"
    test_on "${programs}trivsome|native/|include/|examples/|samples/|bindings/rust/Cargo|tests/trivsome/|tests/gaps/|tests/reference/" \
        "trivsome runs, and fails loudly" sh tests/trivsome/try.sh
    test_on "${programs}trivsome|samples/|tests/live/|tests/listing/|tests/messages/|tests/refusals/|tests/board/|tests/derivatives/|tests/reference/" \
        "a line that stays open is shown as it comes" python3 tests/live/try.py
    test_on "${programs}trivsome|tests/live/|tests/reference/" "the test programs say what they cannot do" python3 tests/live/bounded.py
    test_on "${programs}crates/derivatives_|trivsome|tests/derivatives/|tests/listing/|tests/messages/|tests/refusals/|tests/reference/" \
        "a line of the derivatives exchange is told by its argument" python3 tests/derivatives/try.py
    test_on "${programs}trivsome|README.md|samples/|include/|examples/|tests/readme/|tests/messages/|tests/reference/" \
        "the lines of README work" python3 tests/readme/try.py
    test_on "${programs}crates/fletcher/|crates/capture|trivsome|native/|second/|samples/|tests/capture/|tests/reference/" \
        "a capture survives what cuts it off" python3 tests/capture/try.py
    test_on 'crates/c_|crates/trivsome/|crates/fletcher/|crates/capture|include/|native/|examples/|samples/|tests/library/|tests/reference/' "the library is used from C" sh tests/library/try.sh
    test_on 'second/|compare/|bindings/|bench/|tests/rust/' "the Rust packages are laid out, and clippy has nothing to say" sh tests/rust/try.sh
    test_on 'second/' "the second program passes its own tests" cargo_test second
    test_on 'second/' "the second program and the proved ones agree" cargo_run second compare --seed 1 --frames "$FRAMES"
    test_on 'bindings/|native/' "the calls from Rust pass their own tests" cargo_test bindings/rust
    test_on 'compare/|second/|bindings/' "the second program and the proved library agree call by call" \
        cargo_run compare calls --seed 1 --frames "$FRAMES"
    test_on 'bench/|tests/bench/' "the calls of both are timed" sh tests/bench/try.sh
}
