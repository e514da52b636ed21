#!/bin/sh
# Looks over every Rust package of the repository, its tests too: that it is in the formatter's layout and that clippy has nothing
# to say of it. Neither links, so no archive of the proved library is built for it. Prints what is wrong, and ends with status 1 if
# anything is.
set -u
CDPATH='' cd -- "$(dirname -- "$0")/../.." || exit 2
wrong=0

differs() {
    echo "rust: $*"
    wrong=1
}

for tool in fmt clippy; do
    cargo $tool --version >/dev/null || { differs "there is no cargo $tool"; exit 1; }
done

# where native/build puts the archive, whether it is there yet or not: so named, the package's build does not ask for it
TRIVSOME_ARCHIVE=$PWD/target/native
export TRIVSOME_ARCHIVE

packages=$(find . -name target -prune -o -name .git -prune -o -name Cargo.toml -print | sort)
[ -n "$packages" ] || differs "there is no package"
for package in $packages; do
    cargo fmt --check --manifest-path "$package" || differs "$package is not in the formatter's layout: cargo fmt --manifest-path $package"
    cargo clippy --quiet --offline --locked --all-targets --manifest-path "$package" -- -D warnings || differs "clippy refuses $package"
done

[ "$wrong" -eq 0 ] && echo "rust: as expected"
exit "$wrong"
