#!/usr/bin/env bash
# The paper's wire example through the Rust package: compiles bindings/src and rust_example.rs with rustc alone and runs it.
. "$(dirname "$0")/preamble.sh"
. "$root/tests/bindings.sh"
need_library "$root"
build_bindings "$root" "$work/libleanlantern.rlib"
rustc --edition 2021 -O -D warnings "$root/tests/rust_example.rs" --extern "leanlantern=$work/libleanlantern.rlib" -o "$work/rust_example"
"$work/rust_example"
echo "rust_example: every line as the paper gives it"
