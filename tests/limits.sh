#!/usr/bin/env bash
# Builds the original from its folder (default: ../shared/docs/src), runs tests/limits.rs over it and
# holds the stored output of crates/limits to what it prints. With --write it stores it instead.
. "$(dirname "$0")/preamble.sh"
write=''
if [ "${1:-}" = --write ]; then write=1; shift; fi
original=${1:-$root/../shared/docs/src}
[ -f "$original/src/lib.rs" ] || { echo "limits: no src/lib.rs in $original (give the original's folder)" >&2; exit 2; }
rustc --edition 2018 -O --crate-type rlib --crate-name linked_list_allocator -A warnings \
    "$original/src/lib.rs" -o "$work/liblinked_list_allocator.rlib"
rustc --edition 2021 -O "$root/tests/limits.rs" --extern "linked_list_allocator=$work/liblinked_list_allocator.rlib" -o "$work/limits"
"$work/limits" >"$work/out"
if [ -n "$write" ]; then cp "$work/out" "$root/crates/limits/stdout"; fi
cmp "$work/out" "$root/crates/limits/stdout"
echo "limits: $(wc -l <"$work/out") lines of the original agree"
