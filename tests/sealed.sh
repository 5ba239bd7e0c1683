#!/usr/bin/env bash
# Two boxes with other prices and other noise, the same calls: compiles bindings/src and sealed.rs with rustc alone and runs it.
. "$(dirname "$0")/preamble.sh"
. "$root/tests/bindings.sh"
need_library "$root"
build_bindings "$root" "$work/libleanlantern.rlib"
rustc --edition 2021 -O -D warnings "$root/tests/sealed.rs" --extern "leanlantern=$work/libleanlantern.rlib" -o "$work/sealed"
"$work/sealed"
