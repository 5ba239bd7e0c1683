#!/usr/bin/env bash
# A box of 16 MiB through include/leanlantern.h: compiles dock.c, links the static library and runs it.
. "$(dirname "$0")/preamble.sh"
need_library "$root"
cc -std=c99 -pedantic -Wall -Wextra -Werror -O2 "$root/tests/dock.c" "$library" -o "$work/dock"
"$work/dock"
