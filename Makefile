# make: proves and builds the program and the static library.
# make install PREFIX=.. [DESTDIR=..]: puts them with the script, the tools, the header and the man pages under PREFIX,
# /usr/local where it is not given; DESTDIR is put before it. make uninstall takes away what install put there.
PREFIX = /usr/local
DESTDIR =
TOOLS = draw explain sheet
MODULES = common.py refusals.py

to = $(DESTDIR)$(PREFIX)
home = $(to)/lib/sewqirun
version = $$(cat VERSION)
fill = sed -e "s|@PREFIX@|$(PREFIX)|" -e "s|@VERSION@|$(version)|"
program = crates/readings/out/readings
archive = crates/sewqirun_c/out/libsewqirun_c.a
sources := $(shell find crates.txt crates/*/src crates/*/specs crates/*/proofs -type f 2>/dev/null)

.PHONY: all install uninstall
all: $(program) $(archive)

# `rt run` also runs the program, here on no input.
$(program): $(sources)
	cd crates/readings && rt run </dev/null
	touch $@

$(archive): $(sources)
	cd crates/sewqirun_c && rt lib
	touch $@

install: all
	mkdir -p "$(home)/tools" "$(to)/bin" "$(to)/include" "$(to)/lib/pkgconfig" "$(to)/share/doc/sewqirun" \
	    "$(to)/share/man/man1" "$(to)/share/man/man3"
	install -m 755 $(program) "$(home)/program"
	install -m 755 readings "$(home)/readings"
	install -m 644 VERSION "$(home)/VERSION"
	./readings --kit >"$(home)/KIT" && chmod 644 "$(home)/KIT"
	for tool in $(TOOLS); do install -m 755 "tools/$$tool" "$(home)/tools/$$tool" || exit 1; done
	for module in $(MODULES); do install -m 644 "tools/$$module" "$(home)/tools/$$module" || exit 1; done
	ln -sf ../lib/sewqirun/readings "$(to)/bin/readings"
	ln -sf ../lib/sewqirun/tools/draw "$(to)/bin/readings-draw"
	ln -sf ../lib/sewqirun/tools/sheet "$(to)/bin/readings-sheet"
	install -m 644 $(archive) "$(to)/lib/libsewqirun.a"
	install -m 644 library/sewqirun.h "$(to)/include/sewqirun.h"
	$(fill) library/sewqirun.pc.in >"$(to)/lib/pkgconfig/sewqirun.pc"
	$(fill) docs/man/readings.1 >"$(to)/share/man/man1/readings.1"
	$(fill) docs/man/sewqirun.3 >"$(to)/share/man/man3/sewqirun.3"
	install -m 644 NOTICE docs/FORMAT.md "$(to)/share/doc/sewqirun"
	cd "$(to)" && chmod 644 lib/pkgconfig/sewqirun.pc share/man/man1/readings.1 share/man/man3/sewqirun.3

uninstall:
	rm -rf "$(home)" "$(to)/share/doc/sewqirun"
	cd "$(to)" && rm -f bin/readings bin/readings-draw bin/readings-sheet lib/libsewqirun.a include/sewqirun.h \
	    lib/pkgconfig/sewqirun.pc share/man/man1/readings.1 share/man/man3/sewqirun.3
