# `make` builds the program of this checkout, as `./committees` does, and
#   make program DIR=FOLDER [USES='CRATE ..'] [ARGS='WORD ..' for a first run]
# proves and links another one, with src/main.rt, over all crates here, or over those named (also of the kit). `make
# dist` makes the packages of the program. All have `make build` run by tools/build.sh on a copy of the sources.
.PHONY: all program dist build
copy := $(dir $(lastword $(MAKEFILE_LIST)))
sh := set -eu; . $(copy)tools/build.sh;

ifneq ($(MAKECMDGOALS),build)
all:
	@./committees --help >/dev/null
program:
	@here=$$PWD; $(sh) build_program "$(DIR)" "$(ARGS)" "$(USES)"
dist:
	@$(copy)packages/make_packages
else
# crates.txt has the form of rules of make. What it names of the kit needs no recipe.
include $(copy)crates.txt
.DEFAULT: ; @:
crates := $(shell $(sh) names_for $(copy) $(TOP))
.PHONY: $(crates)

# The crates of the longest chain begin as soon as they can.
build: $(LONG) $(TOP)
$(crates):
	@$(sh) build_crate $@
endif
