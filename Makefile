# The libraries nolthewyr and nolthewyr_run, and the programs rangelog, rangepages, schedule, rangeserver and rangerun.
#
#     make                                            proves and builds everything into target/
#     make install PREFIX=/somewhere [DESTDIR=/root]  installs it; PREFIX is /usr/local if not said
#     make uninstall PREFIX=/somewhere                removes what install put there
#     make check                                      installs into a temporary folder and tests what is there
#     make clean                                      removes target/, and in crates/ what Rattle has proved
#
# docs/LINKING.md says what is installed. Runs over a network need libfabric, which pkg-config is asked for; FABRIC= leaves it out.

PREFIX = /usr/local
DESTDIR =
# PREFIX may be said from the folder in which make is called; the pkg-config file needs it whole.
override PREFIX := $(abspath $(PREFIX))
BINDIR = $(PREFIX)/bin
LIBDIR = $(PREFIX)/lib
INCLUDEDIR = $(PREFIX)/include
DATADIR = $(PREFIX)/share/nolthewyr
MANDIR = $(PREFIX)/share/man/man1
PKGCONFIGDIR = $(LIBDIR)/pkgconfig

CFLAGS = -O2
OBJCOPY = objcopy
WARNINGS = -Wall -Wextra -Wpedantic
CHECKED = -std=c99 $(WARNINGS)
# Runs need the atomics of C11, and of Linux getopt_long and CLOCK_MONOTONIC_RAW.
CHECKED_RUN = -std=c11 -D_GNU_SOURCE $(WARNINGS)

# The version stands in the header alone. Records grow between versions, so a program needs the library of its first two numbers.
VERSION := $(shell sed -n 's/^.define NOLTHEWYR_VERSION "\(.*\)"$$/\1/p' include/nolthewyr.h)
SERIES := $(basename $(VERSION))

BUILT = target/build
LIBRARY = $(BUILT)/libnolthewyr.a
SHARED = $(BUILT)/libnolthewyr.so
SCHEDULE = $(BUILT)/schedule
PROGRAMS = target/bin/rangelog target/bin/rangepages
# The proved parts of the library: each archive has the functions of its crate, which a crate NAME_c exports.
PROVED = target/staticlib/libtable.a target/staticlib/libruns.a target/staticlib/libpages.a target/staticlib/libcalendar.a
MANUALS = $(wildcard man/*.1)
HEADERS = $(wildcard include/*.h)

# The parts of the library for runs, and of its two programs. What is reached over libfabric is built where that is.
FABRIC := $(shell pkg-config --exists libfabric 2>/dev/null && echo libfabric)
FABRIC_CFLAGS := $(if $(FABRIC),$(shell pkg-config --cflags $(FABRIC)))
FABRIC_LIBS := $(if $(FABRIC),$(shell pkg-config --libs $(FABRIC)))
RUN = $(BUILT)/run
RUN_PARTS = $(addprefix $(RUN)/,run.o step.o operated.o pause.o waiting.o failing.o identity.o server_file.o file_locks.o processes.o memory.o \
    $(if $(FABRIC),fabric.o posting.o endpoint.o host.o connection.o sockets.o,no_fabric.o))
RANGERUN_PARTS = $(RUN_PARTS) $(addprefix $(RUN)/,rangerun.o rangerun_hold.o rangerun_serve.o rangerun_held.o rangerun_units.o units.o rangerun_try.o \
    rangerun_tree.o arguments.o)
RANGESERVER_PARTS = $(addprefix $(RUN)/,rangeserver.o arguments.o identity.o server_file.o file_locks.o processes.o left.o serve_memory.o \
    $(if $(FABRIC),serve_fabric.o serving_log.o sockets.o endpoint.o host.o,no_serve_fabric.o))
RUN_LIBRARY = $(BUILT)/libnolthewyr_run.a
RUN_SHARED = $(BUILT)/libnolthewyr_run.so
RUN_PROGRAMS = $(BUILT)/rangeserver $(BUILT)/rangerun
# The declarations and `Table`: for each language the file that a program names, and beside it the one that this file has.
TABLES = $(wildcard include/*.rs) $(wildcard python/*.py)

# What is proved and compiled. Folders too, whose times tell of files that are gone; but not out/, where Rattle keeps what it has made.
CRATES := crates.txt $(shell find $(wildcard crates/*/src crates/*/specs crates/*/proofs))
SCHEDULING = tools/scheduling
PACKED = packaging/__main__.py $(wildcard $(SCHEDULING)/*.py) $(wildcard model/*.py)

all: $(PROGRAMS) $(LIBRARY) $(SHARED) $(SCHEDULE) $(RUN_LIBRARY) $(RUN_SHARED) $(RUN_PROGRAMS)

# Rattle takes all processors, and waits where another of its runs works in the same crates, so that it is never called twice at once.
.NOTPARALLEL:
.DELETE_ON_ERROR:
.PHONY: all install uninstall check clean always

$(BUILT)/texts.o $(SCHEDULE) $(RANGERUN_PARTS) $(RANGESERVER_PARTS): Makefile

# Rattle proves again only what has changed. It leaves what it builds in the crate's out/. `rt run` proves and builds a program and runs it, here on an empty file.
target/bin/%: $(CRATES)
	cd crates/$* && rt run < /dev/null > /dev/null
	install -D crates/$*/out/$* $@

# A library is no archive: that of NAME is built from the crate NAME_c. The crate `probe` is an archive itself.
target/staticlib/lib%.a: $(CRATES)
	cd crates/$*_c && rt lib
	install -D -m 644 crates/$*_c/out/lib$*_c.a $@

target/staticlib/libprobe.a: $(CRATES)
	cd crates/probe && rt lib
	install -D -m 644 crates/probe/out/libprobe.a $@

$(BUILT)/texts.o: library/texts.c $(HEADERS)
	mkdir -p $(BUILT)
	$(CC) $(CHECKED) $(CFLAGS) -fPIC -I include -c $< -o $@

$(LIBRARY): $(PROVED) $(BUILT)/texts.o
	printf '%s\n' 'create $@' $(PROVED:%='addlib %') 'addmod $(BUILT)/texts.o' save end | $(AR) -M

$(SHARED): $(LIBRARY)
	$(CC) $(LDFLAGS) -shared -Wl,-soname,libnolthewyr.so.$(SERIES),--no-undefined -o $@ -Wl,--whole-archive $< -Wl,--no-whole-archive

# Written anew only where libfabric has come or gone since, so that what is linked is then linked again.
$(RUN)/fabric: always
	@mkdir -p $(RUN)
	@echo '$(FABRIC)' | cmp -s - $@ || echo '$(FABRIC)' > $@

$(RUN)/%.o: run/%.c $(wildcard run/*.h) $(wildcard include/*.h) $(RUN)/fabric
	$(if $(filter no_fabric,$*),@echo 'libfabric is not here: runs over a network are not built')
	$(CC) $(CHECKED_RUN) $(CFLAGS) $(FABRIC_CFLAGS) -fPIC -I include -I run -c $< -o $@

# One object, in which the names that are hidden, all but those that the header declares, are its own.
$(RUN_LIBRARY): $(RUN_PARTS)
	$(LD) -r -o $(RUN)/whole.o $(RUN_PARTS)
	$(OBJCOPY) --localize-hidden $(RUN)/whole.o
	rm -f $@
	$(AR) rcs $@ $(RUN)/whole.o

$(RUN_SHARED): $(RUN_PARTS) $(SHARED)
	$(CC) $(LDFLAGS) -shared -Wl,-soname,libnolthewyr_run.so.$(SERIES),--no-undefined -o $@ $^ $(FABRIC_LIBS) $(LDLIBS)

$(BUILT)/rangerun: $(RANGERUN_PARTS) $(LIBRARY)
	$(CC) $(LDFLAGS) -o $@ $^ $(FABRIC_LIBS) $(LDLIBS)

$(BUILT)/rangeserver: $(RANGESERVER_PARTS) $(LIBRARY)
	$(CC) $(LDFLAGS) -o $@ $^ $(FABRIC_LIBS) $(LDLIBS)

$(SCHEDULE): $(PACKED) $(HEADERS)
	rm -rf $@.d
	mkdir -p $@.d/scheduling $@.d/model
	sed 's|@VERSION@|$(VERSION)|' packaging/__main__.py > $@.d/__main__.py
	cp $(SCHEDULING)/*.py $@.d/scheduling
	cp model/*.py $@.d/model
	python3 -m zipapp $@.d --python '/usr/bin/env python3' --output $@

# The lines of a pkg-config file with the places filled in.
PLACED = sed -e 's|@PREFIX@|$(PREFIX)|; s|@LIBDIR@|$(LIBDIR)|; s|@INCLUDEDIR@|$(INCLUDEDIR)|; s|@DATADIR@|$(DATADIR)|; s|@VERSION@|$(VERSION)|' \
    -e '/@FABRIC@$$/{s|@FABRIC@|$(FABRIC)|;/: $$/d}'
# Each library: its files, and its names for the loader and the linker.
LIBRARIES = libnolthewyr libnolthewyr_run

install: all
	install -d $(addprefix $(DESTDIR),$(BINDIR) $(LIBDIR) $(INCLUDEDIR) $(PKGCONFIGDIR) $(DATADIR) $(MANDIR))
	install -m 755 $(PROGRAMS) $(SCHEDULE) $(RUN_PROGRAMS) $(DESTDIR)$(BINDIR)
	install -m 644 $(LIBRARY) $(RUN_LIBRARY) $(DESTDIR)$(LIBDIR)
	for name in $(LIBRARIES); do \
	    install -m 755 $(BUILT)/$$name.so $(DESTDIR)$(LIBDIR)/$$name.so.$(VERSION) && \
	    ln -sf $$name.so.$(VERSION) $(DESTDIR)$(LIBDIR)/$$name.so.$(SERIES) && \
	    ln -sf $$name.so.$(SERIES) $(DESTDIR)$(LIBDIR)/$$name.so || exit 1; \
	done
	install -m 644 $(HEADERS) $(DESTDIR)$(INCLUDEDIR)
	$(PLACED) packaging/nolthewyr.pc.in > $(DESTDIR)$(PKGCONFIGDIR)/nolthewyr.pc
	$(PLACED) packaging/nolthewyr_run.pc.in > $(DESTDIR)$(PKGCONFIGDIR)/nolthewyr_run.pc
	install -m 644 $(TABLES) $(DESTDIR)$(DATADIR)
	install -m 644 $(MANUALS) $(DESTDIR)$(MANDIR)

uninstall:
	rm -f $(addprefix $(DESTDIR)$(BINDIR)/,$(notdir $(PROGRAMS) $(SCHEDULE) $(RUN_PROGRAMS)))
	rm -f $(foreach name,$(LIBRARIES),$(addprefix $(DESTDIR)$(LIBDIR)/$(name).,a so so.$(SERIES) so.$(VERSION)))
	rm -f $(addprefix $(DESTDIR)$(INCLUDEDIR)/,$(notdir $(HEADERS)))
	rm -f $(addprefix $(DESTDIR)$(PKGCONFIGDIR)/,nolthewyr.pc nolthewyr_run.pc)
	rm -f $(addprefix $(DESTDIR)$(MANDIR)/,$(notdir $(MANUALS)))
	rm -f $(addprefix $(DESTDIR)$(DATADIR)/,$(notdir $(TABLES)))
	rm -rf $(DESTDIR)$(DATADIR)/__pycache__
	rmdir $(DESTDIR)$(DATADIR) || true

check: all
	tests/installed

clean:
	rm -rf target crates/*/out
