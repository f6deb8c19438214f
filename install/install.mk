# Installation: make install PREFIX=/usr/local DESTDIR=, make deb. Included by the Makefile.
.PHONY: sharedlib install deb deb-test deps-install

PREFIX ?= /usr/local
DESTDIR ?=
LIBDIR ?= $(PREFIX)/lib
DOCDIR ?= $(PREFIX)/share/doc/quayrudder
# Where Debian's Python looks: its own modules do not name the minor version.
PYTHON_VERSION = $(shell $(PYTHON) -c 'import sys; print("%d.%d" % sys.version_info[:2])')
PYTHONDIR ?= $(PREFIX)/lib/$(if $(filter /usr,$(PREFIX)),python3,python$(PYTHON_VERSION))/dist-packages
ZSHDIR ?= $(PREFIX)/share/zsh/$(if $(filter /usr,$(PREFIX)),vendor-completions,site-functions)
VERSION := $(shell sed -n 's/^version = "\(.*\)"/\1/p' cli/Cargo.toml)
# Grows where a function of the C interface changes its parameters or its answer; a function more leaves it.
SONAME := libquayrudder.so.0
SHARED := target/sharedlib/libquayrudder.so

deps-install:
	@tools/deps binutils gcc gzip help2man

# The shared library, of the very objects in the static one. Its two names are one file: rt ci takes no link below the checkout.
sharedlib: $(SHARED)

$(SHARED): $(LIBRARY) install/exports.map install/install.mk
	@mkdir -p $(@D)
	gcc -shared -Wl,-soname,$(SONAME) -Wl,--version-script,install/exports.map -Wl,-z,defs -Wl,-z,relro,-z,now -s \
	    -o $(@D)/$(SONAME) -Wl,--whole-archive $(LIBRARY) -Wl,--no-whole-archive
	@ln -f $(@D)/$(SONAME) $@

# Nothing is written outside DESTDIR; paths within the files are those without it.
install: cli sharedlib deps-install
	@DESTDIR="$(DESTDIR)" PREFIX="$(PREFIX)" LIBDIR="$(LIBDIR)" DOCDIR="$(DOCDIR)" PYTHONDIR="$(PYTHONDIR)" ZSHDIR="$(ZSHDIR)" \
	    VERSION="$(VERSION)" SONAME="$(SONAME)" install/install.sh $(CLI) $(LIBRARY) $(SHARED)

# target/deb/quayrudder_VERSION_ARCHITECTURE.deb
deb: cli sharedlib deps-install
	@tools/deps dpkg-dev
	@install/deb.sh target/deb $(VERSION)

# The package built, installed into a clean folder, used from there and removed. Not in the gate: it needs more packages.
deb-test: deb $(EXAMPLE)
	@tools/deps fish man-db pkg-config python3-numpy zsh
	@install/test.sh target/deb target/deb-test
