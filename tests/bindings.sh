# Sourced by scripts that compile against the Rust package with rustc alone, for places without cargo.
# usage: build_bindings ROOT OUTPUT [SOURCES]   (SOURCES: a folder like bindings/src, which is the default. The static library goes into
# the rlib, so that whoever links with it needs no more.)
build_bindings() {
    rustc --edition 2021 -O -D warnings --crate-type rlib --crate-name leanlantern "${3:-$1/bindings/src}/lib.rs" \
        -L "$1/target/staticlib" -l static=leanlantern -o "$2"
}
