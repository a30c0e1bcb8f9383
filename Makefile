# make            the library target/staticlib/libtak.a and the program target/bin/takrun, both proved
# make check      the gate: every crate proved from nothing, every test
# make install    library, header, tak.pc, takrun, its manual page, documents and the Rust package, below PREFIX and inside DESTDIR
# make uninstall  removes them; with the same PREFIX and DESTDIR
# make bench      times against a plain interpreter
# make clean      removes what was built, and what rt keeps of its proofs

PREFIX = /usr/local
BINDIR = $(PREFIX)/bin
INCLUDEDIR = $(PREFIX)/include
LIBDIR = $(PREFIX)/lib
DATADIR = $(PREFIX)/share
MANDIR = $(DATADIR)/man
PKGCONFIGDIR = $(LIBDIR)/pkgconfig
DOCDIR = $(DATADIR)/doc/tak
RUSTDIR = $(DATADIR)/tak/rust
INSTALL = install

# The header has the version.
VERSION := $(shell sed -n 's/^.define TAK_VERSION "\(.*\)"$$/\1/p' include/tak.h)
# Folders too, since a file that is gone changes only its folder.
CRATES := crates.txt tools/build $(shell find crates/*/src crates/*/specs crates/*/proofs -type d -o -name '*.rt' -o -name '*.antt')
DOCUMENTS = docs/CALLS.md docs/TCL.md CHANGELOG.md callers/c/count.c callers/c/slices.c
PACKAGE = callers/rust
PACKAGE_FILES = Cargo.toml Cargo.lock build.rs $(patsubst $(PACKAGE)/%,%,$(wildcard $(PACKAGE)/src/*.rs $(PACKAGE)/examples/*.rs))
# Folders below PREFIX are named by it, so that tak.pc stays true if the tree moves and another prefix is given.
FILLED_IN = sed -e 's|@VERSION@|$(VERSION)|g' -e 's|@PREFIX@|$(PREFIX)|g' \
    -e 's|@INCLUDEDIR@|$(patsubst $(PREFIX)/%,$${prefix}/%,$(INCLUDEDIR))|g' -e 's|@LIBDIR@|$(patsubst $(PREFIX)/%,$${prefix}/%,$(LIBDIR))|g'

.PHONY: all library program reports check install uninstall bench clean plain_folders
# One rt works in a crate at a time, and a second would wait.
.NOTPARALLEL:

all: library program

library: target/staticlib/libtak.a

program: target/bin/takrun

# target/log/NAME of what is built says which C functions its proof rests on; with these there is one for each program and for the library.
reports: library program target/bin/replay

# The gate sets this, so that what it has proved is not proved again.
BUILD_WORDS =

target/staticlib/libtak.a: $(CRATES)
	bash tools/build $(BUILD_WORDS) tak_c $@

target/bin/takrun target/bin/replay: target/bin/%: $(CRATES)
	bash tools/build $(BUILD_WORDS) $* $@

check:
	bash .ci/run

# tak.pc has no way to write other characters, nor a folder that depends on where one stands.
plain_folders:
	@for folder in '$(PREFIX)' '$(BINDIR)' '$(INCLUDEDIR)' '$(LIBDIR)' '$(PKGCONFIGDIR)' '$(MANDIR)' '$(DOCDIR)' '$(RUSTDIR)'; do \
	    case "$$folder" in \
	        ''|[!/]*|*[!A-Za-z0-9/._+-]*) echo "$$folder: a folder begins with / and has letters, digits and / . _ + - alone" >&2; exit 1 ;; \
	    esac; \
	done

install: plain_folders all
	$(INSTALL) -d "$(DESTDIR)$(BINDIR)" "$(DESTDIR)$(INCLUDEDIR)" "$(DESTDIR)$(LIBDIR)" "$(DESTDIR)$(PKGCONFIGDIR)" \
	    "$(DESTDIR)$(MANDIR)/man1" "$(DESTDIR)$(DOCDIR)" "$(DESTDIR)$(RUSTDIR)/src" "$(DESTDIR)$(RUSTDIR)/examples"
	$(INSTALL) -m 755 target/bin/takrun "$(DESTDIR)$(BINDIR)/takrun"
	$(INSTALL) -m 644 include/tak.h "$(DESTDIR)$(INCLUDEDIR)/tak.h"
	$(INSTALL) -m 644 target/staticlib/libtak.a "$(DESTDIR)$(LIBDIR)/libtak.a"
	$(FILLED_IN) include/tak.pc.in >"$(DESTDIR)$(PKGCONFIGDIR)/tak.pc"
	$(FILLED_IN) docs/takrun.1.in >"$(DESTDIR)$(MANDIR)/man1/takrun.1"
	chmod 644 "$(DESTDIR)$(PKGCONFIGDIR)/tak.pc" "$(DESTDIR)$(MANDIR)/man1/takrun.1"
	$(INSTALL) -m 644 $(DOCUMENTS) "$(DESTDIR)$(DOCDIR)"
	for file in $(PACKAGE_FILES); do $(INSTALL) -m 644 $(PACKAGE)/$$file "$(DESTDIR)$(RUSTDIR)/$$file" || exit 1; done

# Files by their names and then the folders that only we have, if nobody else put something there.
uninstall: plain_folders
	rm -f "$(DESTDIR)$(BINDIR)/takrun" "$(DESTDIR)$(INCLUDEDIR)/tak.h" "$(DESTDIR)$(LIBDIR)/libtak.a" \
	    "$(DESTDIR)$(PKGCONFIGDIR)/tak.pc" "$(DESTDIR)$(MANDIR)/man1/takrun.1"
	for file in $(notdir $(DOCUMENTS)); do rm -f "$(DESTDIR)$(DOCDIR)/$$file"; done
	for file in $(PACKAGE_FILES); do rm -f "$(DESTDIR)$(RUSTDIR)/$$file"; done
	for folder in "$(RUSTDIR)/src" "$(RUSTDIR)/examples" "$(RUSTDIR)" "$(DATADIR)/tak" "$(DOCDIR)"; do \
	    rmdir "$(DESTDIR)$$folder" 2>/dev/null || true; done

bench:
	bash bench/run

clean:
	rm -rf target crates/*/out
