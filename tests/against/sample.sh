#!/usr/bin/env bash
# The list that crates/replay replays: calls, and the lines that the original gave. Holds the stored list to what the original gives now;
# with --write it stores it, and the count that the program must print.
#
# usage: tests/against/sample.sh [--write] [ORIGINAL-FOLDER]     (default folder: ../shared/docs/src beside the repository)
. "$(dirname "$0")/../preamble.sh"
here=$root/tests/against
. "$root/tests/bindings.sh"
. "$here/reader.sh"
write=''
if [ "${1:-}" = --write ]; then write=1; shift; fi
original=${1:-$root/../shared/docs/src}
[ -f "$original/src/hole.rs" ] || { echo "sample: no src/hole.rs in $original (give the original's folder)" >&2; exit 2; }
need_library "$root"
build_original "$original" "$work/liblinked_list_allocator.rlib"
build_bindings "$root" "$work/libleanlantern.rlib"
rustc --edition 2021 -O "$here/main.rs" --extern "linked_list_allocator=$work/liblinked_list_allocator.rlib" \
    --extern "leanlantern=$work/libleanlantern.rlib" -o "$work/against"
"$work/against" sample 2026 1500 >"$work/list"
lines=$(grep -c '^=' "$work/list")
if [ -n "$write" ]; then
    cp "$work/list" "$root/crates/replay/stdin"
    echo "$lines agree, 0 differ" >"$root/crates/replay/stdout"
fi
cmp "$work/list" "$root/crates/replay/stdin"
echo "sample: $lines lines of the original are those of the stored list"
