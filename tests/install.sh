#!/usr/bin/env bash
# Installs with `make install`, and then builds and runs the example that README.md has for C, outside the repository
# and with what pkg-config says. Then a staged install (DESTDIR), and `make uninstall`, which must leave no file.
. "$(dirname "$0")/preamble.sh"
# what a make that runs this script was told is not for the one that it runs
unset MAKEFLAGS MAKEOVERRIDES MFLAGS

# usage: run_make TARGET PREFIX [DESTDIR]
run_make() { make -s -C "$root" "$1" "PREFIX=$2" "DESTDIR=${3:-}" >/dev/null; }

prefix=$work/prefix
run_make install "$prefix"
export PKG_CONFIG_PATH=$prefix/lib/pkgconfig

# the README's lines as the body of a program
mkdir "$work/elsewhere"
cd "$work/elsewhere"
{
    printf '#include <leanlantern.h>\n#include <stdio.h>\n'
    printf 'static void use(uint8_t *block) { block[0] = 1; }\n'
    printf 'int main(void)\n{\n'
    sed -n '/^\*\*From C\*\*/,/^Link with/s/^    //p' "$root/README.md"
    printf '    puts(LEANLANTERN_VERSION);\n    return 0;\n}\n'
} >prog.c
# shellcheck disable=SC2046  # the words of pkg-config are words of the command
cc -std=c99 -pedantic -Wall -Wextra -Werror prog.c $(pkg-config --cflags --libs leanlantern) -o prog
printf '4096 free of 4096\n%s\n' "$(pkg-config --modversion leanlantern)" >wanted
./prog >printed
cmp wanted printed

# a staged install has the same files, and its pkg-config file names the folder that they are to stand in
run_make install /opt/lantern "$work/stage"
diff <(cd "$prefix" && find . -type f | sort) <(cd "$work/stage/opt/lantern" && find . -type f | sort)
grep -qx 'prefix=/opt/lantern' "$work/stage/opt/lantern/lib/pkgconfig/leanlantern.pc"
if make -s -C "$root" install PREFIX=here DESTDIR= >/dev/null 2>&1; then
    echo "install: a PREFIX that does not begin with / is not refused" >&2
    exit 1
fi

run_make uninstall "$prefix"
run_make uninstall /opt/lantern "$work/stage"
left=$(find "$prefix" "$work/stage" -type f)
[ -z "$left" ] || { printf 'install: left after uninstall:\n%s\n' "$left" >&2; exit 1; }
echo "install: the example of README.md links with what pkg-config says, version $(tail -n 1 printed)"
