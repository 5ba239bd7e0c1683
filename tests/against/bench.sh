#!/usr/bin/env bash
# Both sides on the same traces, alternating; medians as ratios, first on an arena of 65,536 bytes, then on three sizes of arenas with up
# to 200,000 holes. Then the bytes of stack that each call of ours takes on the largest arena with so many holes, and instructions for
# each call where valgrind is at hand.
#
# usage: tests/against/bench.sh [ORIGINAL-FOLDER]     (default folder: ../shared/docs/src beside the repository)
. "$(dirname "$0")/../preamble.sh"
here=$root/tests/against
. "$root/tests/bindings.sh"
. "$here/reader.sh"
original=${1:-$root/../shared/docs/src}
[ -f "$original/src/hole.rs" ] || { echo "bench: no src/hole.rs in $original (give the original's folder)" >&2; exit 2; }
need_library "$root"
build_original "$original" "$work/liblinked_list_allocator.rlib"
build_bindings "$root" "$work/libleanlantern.rlib"
rustc --edition 2021 -O "$here/main.rs" --extern "linked_list_allocator=$work/liblinked_list_allocator.rlib" \
    --extern "leanlantern=$work/libleanlantern.rlib" -o "$work/against"
"$work/against" bench 100000
"$work/against" stack 200000
command -v valgrind >/dev/null 2>&1 || exit 0
count() { valgrind --tool=callgrind --callgrind-out-file=/dev/null "$work/against" trace "$1" "$2" "$3" 2>&1 | sed -n 's/.*Collected : //p'; }
for trace in mixed deep; do
    for who in original ours; do
        echo "$trace $who: $((($(count "$trace" "$who" 4000) - $(count "$trace" "$who" 2000)) / 2000)) instructions a call"
    done
done
