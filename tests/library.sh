#!/usr/bin/env bash
# The static library for C and Rust, target/staticlib/libleanlantern.a: the exports of crate c_face. It is built where it is missing or
# older than a file of crates/.
#
# usage: tests/library.sh     builds it and prints its path
#        need_library ROOT    builds it, for the scripts of this folder, which source this file

# usage: build_library   (in the repository's folder)
build_library() {
    (cd crates/c_face && rt lib) || return
    mkdir -p target/staticlib && cp crates/c_face/out/libc_face.a target/staticlib/libleanlantern.a
}

need_library() {
    local library=$1/target/staticlib/libleanlantern.a
    # (what rt keeps in a crate's out/ is made from the other files)
    if [ ! -f "$library" ] || [ -n "$(find "$1/crates" "$1/crates.txt" -name out -prune -o -newer "$library" -type f -print -quit)" ]; then
        (cd "$1" && build_library >&2)
    fi
}

if [ "${BASH_SOURCE[0]}" = "$0" ]; then
    set -euo pipefail
    root=$(cd "$(dirname "$0")/.." && pwd)
    need_library "$root"
    echo "$root/target/staticlib/libleanlantern.a"
fi
