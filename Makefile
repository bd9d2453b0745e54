# The Blist library: builds it through rt, which proves it first, tests it and installs it.
#
#   make                  target/staticlib/libblist.a
#   make check            build what is missing and run the tests of the gate, without proving from nothing
#   make install          header, library, pkg-config and CMake files, the program list and the manual pages, under PREFIX
#   make install-shared   libblist.so besides, which the linker then prefers
#   make uninstall        take all of them away again
#   make pictures         draw the pictures of README anew
#   make clean            remove all that was built; the next build proves anew
#   make help             print these lines
#
# PREFIX (/usr/local) may be relative; DESTDIR is honoured; what is installed may be moved as a whole.
PREFIX ?= /usr/local
override PREFIX := $(abspath $(PREFIX))
ROOT := $(DESTDIR)$(PREFIX)
VERSION := $(shell sed -n 's/^.define BLIST_VERSION "\(.*\)"/\1/p' include/blist.h)
MAJOR := $(word 1,$(subst ., ,$(VERSION)))
MINOR := $(word 2,$(subst ., ,$(VERSION)))
# libraries with the same two numbers read a text alike, so that one may stand in for the other
SERIES := $(MAJOR).$(MINOR)
SOURCES := $(shell find crates -name out -prune -o \( -name '*.rt' -o -name '*.antt' \) -print) crates.txt
LIBRARY := target/staticlib/libblist.a
LISTING := target/bin/list
MANUAL := target/man/list.1 target/man/blist.3
SHARED := target/staticlib/libblist.so.$(VERSION)
SECOND := second/target/release/second
INSTALLED := include/blist.h lib/libblist.a lib/pkgconfig/blist.pc lib/cmake/blist bin/list libexec/blist \
	share/man/man1/list.1 share/man/man3/blist.3 lib/libblist.so lib/libblist.so.$(SERIES) lib/libblist.so.$(VERSION)

.PHONY: all check install install-shared uninstall pictures clean help
all: $(LIBRARY)

$(LIBRARY): $(SOURCES)
	@mkdir -p $(@D) target/log
	cd crates/blist_c && rt lib > ../../target/log/blist_c.log 2>&1 || { cat ../../target/log/blist_c.log; exit 1; }
	cp crates/blist_c/out/libblist_c.a $@

# a program of the folder crates: rt builds what it proves when it runs it, here on no input
target/bin/%: $(SOURCES)
	@mkdir -p $(@D) target/log
	cd crates/$* && rt run < /dev/null > ../../target/log/$*.log 2>&1 || { cat ../../target/log/$*.log; exit 1; }
	cp crates/$*/out/$* $@

$(SHARED): $(LIBRARY)
	$(CC) -shared -Wl,--whole-archive $< -Wl,--no-whole-archive -Wl,-z,defs -Wl,-soname,libblist.so.$(SERIES) -o $@

target/man/%: include/man.sh include/blist.h list
	@mkdir -p $(@D)
	sh include/man.sh $(@F) $(VERSION) > $@

check: $(LIBRARY) $(LISTING) target/bin/examples
	rt all check
	for test in tests/[0-9]*.sh; do echo "== $$test"; bash $$test || exit 1; done

install: $(LIBRARY) $(LISTING) $(MANUAL)
	install -d $(ROOT)/include $(ROOT)/lib/pkgconfig $(ROOT)/lib/cmake/blist $(ROOT)/bin $(ROOT)/libexec/blist $(ROOT)/share/man/man1 $(ROOT)/share/man/man3
	install -m 644 include/blist.h $(ROOT)/include/blist.h
	install -m 644 $(LIBRARY) $(ROOT)/lib/libblist.a
	sed 's|@VERSION@|$(VERSION)|' include/blist.pc.in > $(ROOT)/lib/pkgconfig/blist.pc
	install -m 644 include/blist-config.cmake $(ROOT)/lib/cmake/blist/blist-config.cmake
	sed 's|@VERSION@|$(VERSION)|; s|@MAJOR@|$(MAJOR)|; s|@MINOR@|$(MINOR)|' include/blist-config-version.cmake.in > $(ROOT)/lib/cmake/blist/blist-config-version.cmake
	install -m 755 list $(ROOT)/bin/list
	install -m 755 $(LISTING) $(ROOT)/libexec/blist/list
	install -m 755 tests/run-x86.sh $(ROOT)/libexec/blist/run-x86.sh
	install -m 644 target/man/list.1 $(ROOT)/share/man/man1/list.1
	install -m 644 target/man/blist.3 $(ROOT)/share/man/man3/blist.3

install-shared: install $(SHARED)
	install -m 755 $(SHARED) $(ROOT)/lib/libblist.so.$(VERSION)
	ln -sf libblist.so.$(VERSION) $(ROOT)/lib/libblist.so.$(SERIES)
	ln -sf libblist.so.$(SERIES) $(ROOT)/lib/libblist.so

uninstall:
	cd $(ROOT) && rm -rf $(INSTALLED)

pictures: $(LIBRARY)
	bash examples/c/pictures.sh docs/pictures

clean:
	rm -rf target crates/*/out second/target second/compare/target examples/rust/target

help:
	@sed -n '2,/^# PREFIX/s/^# \{0,1\}//p' Makefile
