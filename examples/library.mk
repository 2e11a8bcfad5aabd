# Where an example finds the library: below PREFIX, if it is installed there. Else the checker's library is built, into BUILT.
#
# A Makefile that includes this file sets NEEDS to what `make check` needs, in the form of the script `needs`, and makes its first target order-only
# after `needs`, so that all that is missing is said before anything is built.

PREFIX ?= /usr/local
BINDINGS := ../../bindings/c
BUILT ?= $(BINDINGS)/out
INSTALLED := $(wildcard $(PREFIX)/include/gcflip_images.h)
INCLUDE := $(if $(INSTALLED),$(PREFIX)/include,$(BINDINGS))
LIBRARY := $(if $(INSTALLED),$(PREFIX)/lib/libgcflip.a,$(BUILT)/libgcflip_checker.a)
NEEDS += 'cc|the package gcc'

ifeq ($(INSTALLED),)
NEEDS += 'ar|the package binutils'
ifeq ($(wildcard $(BINDINGS)/../../crates/gcflip_c/out/libgcflip_c.a),)
NEEDS += 'rt|the Rattle kit (docs/RATTLE.md); or set PREFIX to where the library is installed'
endif

# make itself finds out whether it is up to date.
$(LIBRARY): always | needs
	@$(MAKE) --no-print-directory -s -C $(BINDINGS) checker OUT=$(abspath $(BUILT))
endif

always:

needs:
	@../needs $(NEEDS)

.PHONY: always needs
