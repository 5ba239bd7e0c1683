# Builds, tries and installs Leanlantern; the work is done by the scripts that stand here.
#
# make                        the static library for C and Rust, target/staticlib/libleanlantern.a (proved, then built)
# make check                  the gate: proves all, tries wrong programs, runs the tests
# make against                the same calls to the original and to ours
# make bench                  both on the same traces, as ratios
# make install PREFIX=..      header, library and pkg-config file below PREFIX (/usr/local if not given)
# make uninstall PREFIX=..    takes them away again
# make help                   this list
#
# LEANLANTERN_ORIGINAL=.. names the original's folder for check, against and bench; DESTDIR=.. goes before PREFIX.

.POSIX:
.PHONY: library check against bench install uninstall help

PREFIX = /usr/local
DESTDIR =

library:
	@tests/library.sh

check:
	.ci/run

against:
	tests/against/run.sh $${LEANLANTERN_ORIGINAL:+"$$LEANLANTERN_ORIGINAL"}

bench:
	tests/against/bench.sh $${LEANLANTERN_ORIGINAL:+"$$LEANLANTERN_ORIGINAL"}

install: library
	@case "$(PREFIX)" in /*) ;; *) echo "install: PREFIX must begin with /" >&2; exit 2 ;; esac
	mkdir -p "$(DESTDIR)$(PREFIX)/include" "$(DESTDIR)$(PREFIX)/lib/pkgconfig"
	install -m 644 include/leanlantern.h "$(DESTDIR)$(PREFIX)/include/leanlantern.h"
	install -m 644 target/staticlib/libleanlantern.a "$(DESTDIR)$(PREFIX)/lib/libleanlantern.a"
	version=$$(sed -n 's/^#define LEANLANTERN_VERSION "\(.*\)"$$/\1/p' include/leanlantern.h) && \
	sed "s|@PREFIX@|$(PREFIX)|; s|@VERSION@|$$version|" include/leanlantern.pc.in \
	    >"$(DESTDIR)$(PREFIX)/lib/pkgconfig/leanlantern.pc"
	chmod 644 "$(DESTDIR)$(PREFIX)/lib/pkgconfig/leanlantern.pc"

uninstall:
	rm -f "$(DESTDIR)$(PREFIX)/include/leanlantern.h" "$(DESTDIR)$(PREFIX)/lib/libleanlantern.a" \
	    "$(DESTDIR)$(PREFIX)/lib/pkgconfig/leanlantern.pc"

help:
	@sed -n 's/^# make/make/p' Makefile
	@sed -n 's/^# \(LEANLANTERN_ORIGINAL=.*\)/\1/p' Makefile
