#!/usr/bin/env bash
# No division stands in the machine code of the library's calls: what a division would give is taken by masks.
#
# usage: tests/no_division.sh
. "$(dirname "$0")/preamble.sh"
need_library "$root"

# the lines of a listing that divide: an instruction, or a call of the compiler's own division
divisions() { grep -E '[[:space:]]([fsuv]?i?div[a-z]*|__u?(div|mod)[a-z]+[0-9])([[:space:]]|$|-)' "$1" || true; }

# the search finds what it is for
if command -v cc >/dev/null 2>&1; then
    printf 'unsigned long f(unsigned long a, unsigned long b) { return a %% b; }\n' >"$work/divides.c"
    cc -O2 -c "$work/divides.c" -o "$work/divides.o"
    objdump -dr --no-show-raw-insn "$work/divides.o" >"$work/divides.txt"
    [ -n "$(divisions "$work/divides.txt")" ] || { echo "no_division: a division in C is not found, so this shows nothing" >&2; exit 1; }
fi

objdump -dr --no-show-raw-insn "$library" >"$work/library.txt"
calls=$(grep -c '^[0-9a-f]* <lantern_[a-z_]*>:$' "$work/library.txt" || true)
exports=$(cat "$root"/crates/c_face/src/*.rt | grep -c 'extern "C" fn lantern_')
[ "$calls" -eq "$exports" ] || { echo "no_division: $calls of $exports calls are in the listing" >&2; exit 1; }
found=$(divisions "$work/library.txt")
[ -z "$found" ] || { printf 'no_division: the library divides:\n%s\n' "$found" >&2; exit 1; }
echo "no_division: $calls calls, $(grep -cE '^ +[0-9a-f]+:' "$work/library.txt") instructions, none divides"
