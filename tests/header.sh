#!/usr/bin/env bash
# include/leanlantern.h by itself: it compiles as C99, C11, C17, C++98, C++11 and C++17 with all warnings as errors,
# its structs are the arrays of words of before, and programs with structs, with cast arrays and with the prototypes of
# before, linked with the same library, print the same. Then the header is bent, and the assertions must refuse it.
. "$(dirname "$0")/preamble.sh"
need_library "$root"

standards=(c99 c11 c17)
if command -v c++ >/dev/null 2>&1; then
    standards+=(c++98 c++11 c++17)
else
    echo "header: no c++: C++ is not tried."
fi

# usage: compile STANDARD INCLUDE-FOLDER OUTPUT [OPTION]..
compile() {
    local by=(cc)
    case $1 in c++*) by=(c++ -x c++) ;; esac
    "${by[@]}" "-std=$1" -pedantic -Wall -Wextra -Werror -O2 -I "$2" "${@:4}" -c "$root/tests/header.c" -o "$3.o"
    "${by[0]}" "$3.o" "$library" -o "$3"
}

for standard in "${standards[@]}"; do
    for form in STRUCT CAST BEFORE; do
        compile "$standard" "$root/include" "$work/$standard.$form" "-D$form"
        "$work/$standard.$form" >"$work/$standard.$form.out"
        cmp "$work/c99.STRUCT.out" "$work/$standard.$form.out"
    done
done
# each refusal is among the calls
for number in $(seq 0 10); do
    grep -q "^[a-z]* $number:" "$work/c99.STRUCT.out" || { echo "header: no call is answered $number" >&2; exit 1; }
done

# usage: refuses NAME SED-EXPRESSION   (a header that is bent so must not compile)
refuses() {
    mkdir "$work/$1"
    sed "$2" "$root/include/leanlantern.h" >"$work/$1/leanlantern.h"
    ! cmp -s "$root/include/leanlantern.h" "$work/$1/leanlantern.h" || { echo "header: $1 changes nothing" >&2; exit 1; }
    for standard in "${standards[@]}"; do
        if compile "$standard" "$work/$1" "$work/$1/it" 2>"$work/$1/said"; then
            echo "header: $1 is not refused as $standard" >&2
            exit 1
        fi
        grep -Eq 'assert|negative' "$work/$1/said" || { echo "header: $1 is refused as $standard, but by no assertion" >&2; exit 1; }
    done
}
refuses exchanged 's/uint64_t first;/uint64_t FIRST;/; s/uint64_t pending;/uint64_t first;/; s/uint64_t FIRST;/uint64_t pending;/'
refuses longer 's/uint64_t two;/uint64_t two, three;/'
refuses narrower 's/uint64_t used;/uint32_t used;/'
refuses renumbered 's/LANTERN_NO_ROOM = 7/LANTERN_NO_ROOM = 11/'
echo "header: ${standards[*]}: $(wc -l <"$work/c99.STRUCT.out") calls, the same with structs, with cast arrays and as before"
