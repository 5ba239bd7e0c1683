#!/usr/bin/env bash
# The Rust package by cargo: its tests and its documentation, then the program that README.md shows, which stands outside the repository
# and depends on the package by path, and what the build says where there is no static library.
. "$(dirname "$0")/preamble.sh"
need_library "$root"
unset LEANLANTERN_LIB_DIR
export CARGO_TARGET_DIR=$work/target RUSTFLAGS='-D warnings' RUSTDOCFLAGS='-D warnings'
package=$root/bindings

cargo test --quiet --offline --manifest-path "$package/Cargo.toml"
cargo doc --quiet --offline --no-deps --manifest-path "$package/Cargo.toml"

# README's text: its lines for Cargo.toml, with the path of this repository, and its program
mkdir -p "$work/program/src"
sed -n '/^\*\*From Rust\*\*/,/^\*\*From Rattle\*\*/s/^    //p' "$root/README.md" >"$work/shown"
{
    printf '[package]\nname = "program"\nedition = "2021"\n\n'
    sed -n '/^\[dependencies\]/,/^leanlantern/p' "$work/shown" | sed "s|path = \"[^\"]*\"|path = \"$package\"|"
} >"$work/program/Cargo.toml"
sed -n '/^use leanlantern/,/^}/p' "$work/shown" >"$work/program/src/main.rs"
told=$(cd "$work/program" && cargo run --quiet --offline)
if [ "$told" != '4096 free of 4096' ]; then
    echo "cargo: the program that README.md shows told: $told" >&2
    exit 1
fi

# the same with the library elsewhere, and with no library
mkdir "$work/elsewhere" "$work/nothing"
cp "$library" "$work/elsewhere/"
(cd "$work/program" && LEANLANTERN_LIB_DIR=$work/elsewhere cargo run --quiet --offline >/dev/null)
if (cd "$work/program" && LEANLANTERN_LIB_DIR=$work/nothing cargo build --quiet --offline) >"$work/said" 2>&1; then
    echo "cargo: it was built without the static library" >&2
    exit 1
fi
if ! grep -qF "the static library is missing: there is no file $work/nothing/libleanlantern.a" "$work/said"; then
    echo "cargo: the build does not say what is missing:" >&2
    cat "$work/said" >&2
    exit 1
fi
echo "cargo: the package's tests pass, README's program runs, and a missing library is named"
