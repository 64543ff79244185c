# Builds and installs the library, the command, the Python module and the Rust crate's sources:
#   make
#   make install [DESTDIR=FOLDER] [PREFIX=/usr/local] [LIBDIR=PREFIX/lib] [PYTHONDIR=...]
#   make uninstall, with the same words
# The library is the libabi.a in the folder CAKIROTU_LIB if that is set; else `tools/made abi` makes it. docs/BINDINGS.md has more.

PREFIX ?= /usr/local
LIBDIR ?= $(PREFIX)/lib
INCLUDEDIR ?= $(PREFIX)/include
BINDIR ?= $(PREFIX)/bin
DATADIR ?= $(PREFIX)/share
MANDIR ?= $(DATADIR)/man
INSTALL ?= install
PYTHON ?= python3
# The folder of PREFIX that Python looks in, or else the usual one.
ifndef PYTHONDIR
PYTHONDIR := $(shell $(PYTHON) -c 'import sys, sysconfig; p = "$(PREFIX)"; \
    print(next((f for f in sys.path if f.startswith(p + "/lib/") and f.endswith("-packages")), sysconfig.get_path("purelib", "posix_prefix", {"base": p})))')
endif
ifeq ($(PYTHONDIR),)
$(error there is no $(PYTHON) that says where its modules are: PYTHONDIR names the folder)
endif

# Each folder is a word for the shell.
ifneq ($(words x$(DESTDIR)$(PREFIX)$(LIBDIR)$(INCLUDEDIR)$(BINDIR)$(DATADIR)$(MANDIR)$(PYTHONDIR)),1)
$(error a folder's name has a space)
endif

version := $(shell sed -n 's/^version = "\(.*\)"$$/\1/p' bindings/rust/Cargo.toml)
soname := libcakirotu.so.$(firstword $(subst ., ,$(version)))
shared := libcakirotu.so.$(version)
made := target/make
command := target/cli/release/cakirotu

ifneq ($(CAKIROTU_LIB),)
archive := $(CAKIROTU_LIB)/libabi.a
else
archive := target/staticlib/libabi.a
endif

shells := bash zsh fish
completion_bash := $(DATADIR)/bash-completion/completions/cakirotu
completion_zsh := $(DATADIR)/zsh/site-functions/_cakirotu
completion_fish := $(DATADIR)/fish/vendor_completions.d/cakirotu.fish

python := $(notdir $(wildcard bindings/python/cakirotu/*.py))
# What `cargo package` takes.
crate := Cargo.toml Cargo.lock build.rs README.md LICENSE NOTICE $(patsubst bindings/rust/%,%,$(wildcard bindings/rust/src/*.rs bindings/rust/examples/*.rs))

# Folders that nothing else has files in; `make uninstall` removes them with all that is in them, and the files by name.
own_folders := $(PYTHONDIR)/cakirotu $(DATADIR)/cakirotu $(DATADIR)/doc/cakirotu
own_files := $(LIBDIR)/libcakirotu.a $(LIBDIR)/$(shared) $(LIBDIR)/$(soname) $(LIBDIR)/libcakirotu.so $(LIBDIR)/pkgconfig/cakirotu.pc \
    $(INCLUDEDIR)/cakirotu.h $(BINDIR)/cakirotu $(MANDIR)/man1/cakirotu.1 $(foreach shell,$(shells),$(completion_$(shell)))

.PHONY: all FORCE install install-library install-command install-python install-rust install-documents uninstall
.DELETE_ON_ERROR:

all: $(archive) $(made)/$(shared) $(command) $(foreach shell,$(shells),$(made)/completion.$(shell))

ifneq ($(CAKIROTU_LIB),)
$(archive):
	@echo "make: there is no $@; \`tools/made abi\` makes libabi.a, and CAKIROTU_LIB names its folder" >&2; exit 1
else
$(archive): crates.txt $(shell find crates/*/src crates/*/specs crates/*/proofs -type f)
	tools/made abi
	touch $@
endif

# Changes only when another archive is named: what was linked with the one before is then linked again.
$(made)/archive: FORCE
	@mkdir -p $(made)
	@echo $(abspath $(archive)) | cmp -s - $@ || echo $(abspath $(archive)) >$@

# The header says what the shared library exports.
$(made)/exports: bindings/c/cakirotu.h
	mkdir -p $(made)
	{ echo '{ global:'; sed -n 's/^uint8_t \(cakirotu_[a-z_]*\)(.*/\1;/p' $<; echo 'local: *; };'; } >$@

# Nothing of the compiler's own is linked in, and no text relocation or unknown symbol is let pass.
$(made)/$(shared): $(archive) $(made)/archive $(made)/exports
	$(CC) $(LDFLAGS) -shared -nostartfiles -Wl,-soname,$(soname) -Wl,--version-script=$(made)/exports -Wl,-z,defs,-z,text,-z,now,-z,relro,-z,noexecstack \
	    -Wl,--whole-archive $(archive) -Wl,--no-whole-archive -o $@

$(command): $(archive) $(made)/archive $(shell find cli bindings/rust -name target -prune -o -type f -print)
	CAKIROTU_LIB=$(dir $(archive)) tools/cli build made
	touch $@

$(made)/completion.%: $(command)
	$(command) completions $* >$@

install: install-library install-command install-python install-rust install-documents

# Nothing is installed before all is made.
install-library install-command install-python install-rust install-documents: all

install-library:
	$(INSTALL) -d $(DESTDIR)$(LIBDIR)/pkgconfig $(DESTDIR)$(INCLUDEDIR)
	$(INSTALL) -m 644 $(archive) $(DESTDIR)$(LIBDIR)/libcakirotu.a
	$(INSTALL) -m 755 $(made)/$(shared) $(DESTDIR)$(LIBDIR)/$(shared)
	ln -sf $(shared) $(DESTDIR)$(LIBDIR)/$(soname)
	ln -sf $(soname) $(DESTDIR)$(LIBDIR)/libcakirotu.so
	$(INSTALL) -m 644 bindings/c/cakirotu.h $(DESTDIR)$(INCLUDEDIR)/cakirotu.h
	sed -e 's|@PREFIX@|$(PREFIX)|; s|@VERSION@|$(version)|' \
	    -e 's|@LIBDIR@|$(patsubst $(PREFIX)/%,$${prefix}/%,$(LIBDIR))|; s|@INCLUDEDIR@|$(patsubst $(PREFIX)/%,$${prefix}/%,$(INCLUDEDIR))|' \
	    bindings/c/cakirotu.pc.in >$(DESTDIR)$(LIBDIR)/pkgconfig/cakirotu.pc
	chmod 644 $(DESTDIR)$(LIBDIR)/pkgconfig/cakirotu.pc

install-command:
	$(INSTALL) -d $(DESTDIR)$(BINDIR) $(DESTDIR)$(MANDIR)/man1 $(foreach shell,$(shells),$(DESTDIR)$(dir $(completion_$(shell))))
	$(INSTALL) -m 755 $(command) $(DESTDIR)$(BINDIR)/cakirotu
	$(INSTALL) -m 644 docs/cakirotu.1 $(DESTDIR)$(MANDIR)/man1/cakirotu.1
	set -e; $(foreach shell,$(shells),$(INSTALL) -m 644 $(made)/completion.$(shell) $(DESTDIR)$(completion_$(shell));)

# The module gets the way from its folder to the library's.
install-python:
	$(INSTALL) -d $(DESTDIR)$(PYTHONDIR)/cakirotu
	$(INSTALL) -m 644 $(addprefix bindings/python/cakirotu/,$(python)) $(DESTDIR)$(PYTHONDIR)/cakirotu
	sed -i 's|^LIBRARY_FOLDER = .*|LIBRARY_FOLDER = "$(shell realpath -m --relative-to=$(PYTHONDIR)/cakirotu $(LIBDIR))"|' \
	    $(DESTDIR)$(PYTHONDIR)/cakirotu/_library.py

install-rust:
	$(INSTALL) -d $(DESTDIR)$(DATADIR)/cakirotu/rust/src $(DESTDIR)$(DATADIR)/cakirotu/rust/examples
	set -e; for file in $(crate); do $(INSTALL) -m 644 bindings/rust/$$file $(DESTDIR)$(DATADIR)/cakirotu/rust/$$file; done

install-documents:
	$(INSTALL) -d $(DESTDIR)$(DATADIR)/doc/cakirotu
	$(INSTALL) -m 644 LICENSE NOTICE $(DESTDIR)$(DATADIR)/doc/cakirotu

uninstall:
	rm -f $(addprefix $(DESTDIR),$(own_files))
	rm -rf $(addprefix $(DESTDIR),$(own_folders))
