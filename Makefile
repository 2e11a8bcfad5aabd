# The commands of this repository. 'make' alone lists them; CONTRIBUTING.md says how long each takes and what it leaves behind.
#
# Needs the Rattle kit (`rt` on the path), Python 3.8 or later, and gcc with binutils.

TRACE ?= examples/write_while_scanning.trace

list:
	@sed -n 's/^\([a-z]*\):.*## /  make \1	/p' $(firstword $(MAKEFILE_LIST)) | expand -t 22

run: ## plays a trace, or those of TRACE=.., by the built program; without one, compiles the program and proves nothing
	@tools/play $(TRACE)

test: ## runs CI (tests/all): all proofs, must-fail edits and tests; first installs what the tests need
	@tests/all

prove: ## proves the program and the crates below it, and builds crates/gcflip/out/gcflip
	@tools/build gcflip

libraries: ## proves both libraries for C, and builds bindings/c/out/libgcflip.a and libgcflip.so
	@tools/build gcflip_c gcflip_heap_c
	@$(MAKE) --no-print-directory -C bindings/c

beside: ## proves the heap whose collector works in another thread, and builds bindings/c/out/libgcflip_beside.a
	@tools/build gcflip_beside_c
	@$(MAKE) --no-print-directory -C bindings/c beside

checker: ## proves the checker for C without the collector, and builds bindings/c/out/libgcflip_checker.a
	@tools/build gcflip_c
	@$(MAKE) --no-print-directory -C bindings/c checker

dist: ## proves the program and the libraries, that of 'make beside' too, and packs a release into dist/
	@tools/dist --build

explore: ## shows a collection, or the text of FILE=.., in a web page; builds the libraries first if bindings/c/out has none
	@test -n "$$GCFLIP_LIBRARY" || test -e bindings/c/out/libgcflip.so || $(MAKE) --no-print-directory libraries
	@PYTHONPATH=bindings/python:explore python3 -m gcflip_explore $(FILE)

.PHONY: list run test prove libraries beside checker dist explore
