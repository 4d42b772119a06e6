# The release: the proved program and library, with all that a user wants around them.
#   make release                   dist/: an archive, a Debian package, the wheel, checksums
#   make release ARCH=aarch64      the same for 64-bit ARM, by a cross compiler (release/aarch64)
#   make install PREFIX=/usr/local DESTDIR=
#   make uninstall PREFIX=/usr/local DESTDIR=
#   make web                       dist/gco.html: the page for a browser, with the library in it
#                                  (made before a release, it is part of that)
#   make npm                       dist/gco-proved-VERSION.tgz: the same library for node
#   make check-web                 tries both in real browsers, beside the program
#   make check                     tries the program, the bindings, the release, the manuals, the
#                                  completions and the pages
#   make check-arm                 makes the release for ARM, and tries it by qemu
#   make bench                     measures the program beside another: bench/README.md;
#                                  BENCH_OPTIONS=--renew writes the figures into the pages
#   make bench-pairs               the library beside another, where each pair has a table of its own
# The program and the library are what `rt run` in crates/gco and `make -C bindings` leave.
# Others may be named:
#   GCO=path/of/gco                the built program
#   CRATE=path/of/gco_c            the folder whose out/ has libgco_c.a
#   GATE_LOG=path                  what `rt ci` printed: its last line goes into RELEASE.md; else
#                                  gate.log, if it is there
#   PYTHON=path                    a Python with numpy and Pillow; else that of the path if it has
#                                  them, and Debian's if not
VERSION := $(shell cat VERSION)
GCO ?= crates/gco/out/gco
CRATE ?=
GATE_LOG ?= $(wildcard gate.log)
PREFIX ?= /usr/local
DESTDIR ?=
BENCH_OPTIONS ?=
ifndef PYTHON
PYTHON := $(shell python3 -c 'import numpy, PIL' 2> /dev/null && echo python3 || echo /usr/bin/python3)
endif
ARCH ?= x86_64
NAME := gco-$(VERSION)-linux-$(ARCH)
STAGE := dist/$(NAME)
ARCHIVE := dist/$(NAME).tar.gz
CRATES := $(if $(CRATE),$(abspath $(CRATE)/..),$(abspath crates))
PICTURES := $(CRATES)/gco_pictures
PAGES := README.md docs/IMAGES.md docs/LABEL.md docs/ENERGY.md docs/SLOW.md docs/REFUSED.md docs/LARGE.md
BINDINGS := $(MAKE) -C bindings VERSION=$(VERSION) PYTHON=$(PYTHON) CRATE=$(CRATES)/gco_c
WEB := $(MAKE) -C web PYTHON=$(PYTHON) CRATE=$(PICTURES)

# What a release is made of: the program, a command that runs it here, and how the library is made.
ifeq ($(ARCH),aarch64)
ARM := $(abspath dist/aarch64)
CROSS := aarch64-linux-gnu-
BUILT := $(ARM)/gco
RUN := $(ARM)/run/gco
BINDINGS_FOR := $(BINDINGS) $(foreach it,LD AR OBJCOPY OBJDUMP,$(it)=$(CROSS)$(shell echo $(it) | tr A-Z a-z)) \
	CC=$(CROSS)gcc HEAP=$(ARM)/heap.o ARCHIVE=$(ARM)/libgco_c.a IMAGES_ARCHIVE=$(ARM)/libgco_pictures.a
STAGED_FOR := OBJDUMP=$(CROSS)objdump MACHINE='64-bit ARM' TRIED='`make check-arm`, with an emulator in place of such a processor'
DEB := dist/gco_$(VERSION)_arm64.deb
else
BUILT := $(GCO)
RUN := $(GCO)
BINDINGS_FOR := $(BINDINGS)
STAGED_FOR := OBJDUMP=objdump MACHINE=x86-64 TRIED='`make check`'
DEB := dist/gco_$(VERSION)_amd64.deb
endif

release: $(ARCHIVE) $(DEB)
	cp $(STAGE)/python/*.whl dist
	cd dist && sha256sum gco-*.tar.gz gco_*.deb *.whl > SHA256SUMS

$(GCO):
	@echo "$@ is missing: prove the program (rt run in crates/gco), or name one: GCO=path" >&2
	@exit 1

ifeq ($(ARCH),aarch64)
$(BUILT): FORCE
	$(MAKE) -C release/aarch64 OUT=$(ARM) CRATES=$(CRATES) PYTHON=$(PYTHON)
endif

# The tree of the archive. It is made anew each time, since it is made in seconds.
$(STAGE)/SHA256SUMS: $(BUILT) FORCE
	rm -rf $(STAGE) dist/*_$(ARCH).whl
	$(BINDINGS) clean
	$(BINDINGS_FOR) pictures
	$(BINDINGS_FOR) all wheel
	$(BINDINGS_FOR) install PREFIX=$(abspath $(STAGE)) DESTDIR=
	VERSION=$(VERSION) GCO=$(BUILT) RUN=$(RUN) DEB=$(notdir $(DEB)) $(STAGED_FOR) GATE_LOG=$(GATE_LOG) \
		PYTHON=$(PYTHON) sh release/stage.sh $(STAGE)

$(ARCHIVE): $(STAGE)/SHA256SUMS
	tar --sort=name --owner=0 --group=0 --numeric-owner --mtime=@$$(git log -1 --format=%ct) \
		-C dist -cf - $(NAME) | gzip -9n > $@

$(DEB): $(STAGE)/SHA256SUMS
	VERSION=$(VERSION) PYTHON=$(PYTHON) sh release/make_deb.sh $(STAGE) $@

install: $(STAGE)/SHA256SUMS
	sh $(STAGE)/install.sh --prefix "$(PREFIX)" --destdir "$(DESTDIR)"

uninstall:
	sh release/install.sh --uninstall --prefix "$(PREFIX)" --destdir "$(DESTDIR)"

check: check-pages check-program check-bindings release
	$(PYTHON) tools/trials/try_release.py $(ARCHIVE) $(DEB)
	$(PYTHON) tools/trials/run_pages.py --release $(STAGE) $(PAGES)
	@echo "check: all passed"

# The library of ARM must not stay where that of this machine is looked for.
check-arm: check-packages-arm $(GCO)
	$(MAKE) release ARCH=aarch64
	$(BINDINGS) clean
	$(BINDINGS) all
	PYTHONPATH=bindings/dist/python $(PYTHON) tools/trials/try_arm.py dist/gco-$(VERSION)-linux-aarch64.tar.gz \
		dist/gco_$(VERSION)_arm64.deb --gco $(abspath $(GCO))

# What the pages say of the sources and of each other.
check-pages: check-packages
	$(PYTHON) tools/check.py --quick
	$(PYTHON) bench/test_measure.py

# The built program: against the definitions, on damaged inputs, and with each allocation refused.
check-program: check-packages $(GCO)
	$(PYTHON) tools/trials/program_by_definition.py --gco $(GCO)
	$(PYTHON) tools/trials/hostile.py --gco $(GCO) --count 2000
	$(PYTHON) tools/trials/refused_growths.py --gco $(GCO)

# The tests of the bindings compare with the program too.
check-bindings: check-packages $(GCO)
	GCO_PROGRAM=$(abspath $(GCO)) $(BINDINGS) test

web:
	$(WEB) all

npm:
	$(WEB) npm

check-web: check-packages-web $(GCO)
	$(BINDINGS) IMAGES_CRATE=$(PICTURES) test_images
	$(WEB) test GCO=$(abspath $(GCO)) LIBRARY=$(abspath bindings/dist/lib/libgco_pictures.so)

check-packages:
	@$(PYTHON) tools/checks/check_packages.py

check-packages-%:
	@$(PYTHON) tools/checks/check_packages.py $*

bench: $(GCO)
	$(MAKE) -C bench GCO=$(abspath $(GCO)) PYTHON=$(PYTHON) BENCH_OPTIONS="$(BENCH_OPTIONS)"

bench-pairs:
	$(MAKE) -C bench bench-pairs PYTHON=$(PYTHON) BENCH_OPTIONS="$(BENCH_OPTIONS)"

clean:
	rm -rf dist
	$(MAKE) -C bindings clean
	$(MAKE) -C bench clean

FORCE:

.PHONY: web npm check-web check-arm \
	release install uninstall check check-pages check-program check-bindings check-packages \
	bench bench-pairs clean FORCE
.DELETE_ON_ERROR:
.NOTPARALLEL:
