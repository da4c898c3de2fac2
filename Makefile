# For C callers:
#   make dist      the package: header, archive, pkg-config file and a note on licences, in dist/
#   make examples  the programs of examples/ against the package, run, their output compared
#   make clean     removes dist/
# The archive is made by the Rattle kit (rt, by tools/archive); it is made again when the code of a crate has changed.
# The version is the header's.
VERSION := $(shell sed -n 's/^.define SWEEP_VERSION "\(.*\)"$$/\1/p' include/sweep.h)
ARCHIVE = crates/sweep/out/libsweep.a
WARNINGS = -std=c99 -Wall -Wextra -Wpedantic -Werror
PACKAGE = $(CURDIR)/dist
BUILT = target-gate/examples

EXAMPLES = analyser_day two_images front_to_back front_panel room terms compaction marked

.PHONY: dist examples clean

dist: $(ARCHIVE)
	rm -rf dist
	mkdir -p dist/include dist/lib/pkgconfig
	cp include/sweep.h dist/include/
	cp $(ARCHIVE) dist/lib/
	sed 's/@VERSION@/$(VERSION)/' include/sweep.pc.in >dist/lib/pkgconfig/sweep.pc
	cp docs/LICENCES.md dist/

$(ARCHIVE): crates.txt $(shell find crates/*/src -name '*.rt')
	tools/archive

examples: dist
	mkdir -p $(BUILT)
	for name in $(EXAMPLES); do \
	    $(CC) $(WARNINGS) examples/$$name.c -o $(BUILT)/$$name \
	        $$(PKG_CONFIG_PATH=$(PACKAGE)/lib/pkgconfig pkg-config --cflags --libs sweep) && \
	    $(BUILT)/$$name >$(BUILT)/$$name.out && \
	    diff examples/$$name.out $(BUILT)/$$name.out || exit 1; \
	done

clean:
	rm -rf dist
