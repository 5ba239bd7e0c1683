#!/usr/bin/env bash
# The paper's wire example through include/leanlantern.h: compiles c_example.c, links the static library and runs it.
. "$(dirname "$0")/preamble.sh"
need_library "$root"
cc -std=c99 -pedantic -Wall -Wextra -Werror -O2 "$root/tests/c_example.c" "$library" -o "$work/c_example"
"$work/c_example"
echo "c_example: every line as the paper gives it"
