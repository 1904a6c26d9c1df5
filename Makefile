# `make` tells what there is. See README.md.

# compare and compare-hand: so many calls and so many damaged heaps; compare-ask and compare-show: so many heaps; all from this seed.
N ?= 100000
DAMAGED ?= 5000
ASKED ?= 2000
SHOWN ?= 200
SEED ?= 1
# install: where to.
PREFIX ?= /usr/local
CFLAGS ?= -O2 -Wall -Wextra -Werror
# Set by the gate, where all products are there: then no target calls `rt`, and the comparisons can run side by side.
BUILT ?=

# A library for C each, with its header and its pkg-config file: the console's heap, and the hand unit's.
LIBRARIES = jagwibodu jagwibodu_hand
archive = crates/$(1)/out/lib$(1).a
LIBRARY = $(call archive,jagwibodu)
HAND_LIBRARY = $(call archive,jagwibodu_hand)
VERSION = $(shell sed -n 's/.*JAGWIBODU_VERSION "\(.*\)".*/\1/p' include/jagwibodu_answer.h)

.PHONY: help test run show ask inputs same-inputs lib archives install files example compare compare-hand compare-ask compare-show compare-twin compare-twin-hand bench

help:
	@echo 'make run      proves the call-list program and runs it on an example (LIST=file: on that list)'
	@echo 'make show     proves the report program and runs it on an example (HEAP=file: on that heap)'
	@echo 'make ask      proves the question program and runs it on an example (QUESTIONS=file: on those)'
	@echo 'make lib      proves the library and leaves $(LIBRARY), for C,'
	@echo '              and $(HAND_LIBRARY), the hand unit'\''s'
	@echo 'make install  puts headers, libraries and pkg-config files below PREFIX ($(PREFIX))'
	@echo 'make test     runs every test'
	@echo 'make bench    counts the instructions of each call, against plain C'

# Everything is proved once, and the comparisons and the examples run on what that left; the last line is 'N passed, 0 failed'.
test:
	tools/gate same-inputs compare compare-hand compare-ask compare-show example

# The program $(1) is proved with all that it stands on, which is told crate by crate, and then runs on the file $(2).
define proved-and-run
	@mkdir -p out
	@echo 'proving $(1) and what it stands on (some minutes the first time)' >&2
	@exec 3>&1; { (cd crates/$(1) && rt run 2>&1 >&3) < $(2) || echo 'rt: failed'; } | tee out/$(1).log | sed -un 's/^rt: chose --jobs [0-9]* for /rt: proving /p' >&2
	@if tail -n 1 out/$(1).log | grep -q '^rt: failed'; then cat out/$(1).log >&2; exit 1; fi
endef

# The program $(1) is proved and built, as crates/$(1)/out/$(1); for that it runs on its example.
proved = $(if $(BUILT),,cd crates/$(1) && rt run < stdin > /dev/null)
program = crates/$(1)/out/$(1)

# The call-list program, on document 01's example or on the list that LIST names.
run:
	$(call proved-and-run,calls,$(or $(LIST),crates/calls/stdin))

# The report on a heap, on an example or on the file that HEAP names.
show:
	$(call proved-and-run,show,$(or $(HEAP),crates/show/stdin))

# Questions on heaps, on an example or on the file that QUESTIONS names.
ask:
	$(call proved-and-run,ask,$(or $(QUESTIONS),crates/ask/stdin))

# What the gate runs longcalls, show and ask on, and what each must print, by the second program.
INPUTS = crates
inputs:
	mkdir -p $(INPUTS)/longcalls $(INPUTS)/show $(INPUTS)/ask
	python3 compare/longlist.py 20000 1 $(INPUTS)/longcalls/stdin $(INPUTS)/longcalls/stdout
	python3 compare/report.py --make $(INPUTS)/show/stdin $(INPUTS)/show/stdout
	python3 compare/answer.py --make $(INPUTS)/ask/stdin $(INPUTS)/ask/stdout

# The files in crates/ are what that makes.
same-inputs:
	$(MAKE) --no-print-directory inputs INPUTS=out/inputs
	for file in longcalls/stdin longcalls/stdout show/stdin show/stdout ask/stdin ask/stdout; do cmp out/inputs/$$file crates/$$file || exit 1; done

# The archives for C. Two widths in one would make the word size a variable of every call.
lib:
	$(if $(BUILT),,for name in $(LIBRARIES); do (cd crates/$$name && rt lib) || exit 1; done)

# The same over the libraries that `rt ci` left in a clean clone, for the gate.
archives:
	for name in $(LIBRARIES); do tools/archive $$name || exit 1; done

# Headers, archives and pkg-config files, where such things go; files: of the archives that are there.
install: lib
	$(MAKE) --no-print-directory files
files:
	install -d $(PREFIX)/include $(PREFIX)/lib/pkgconfig
	install -m 644 $(LIBRARIES:%=include/%.h) include/jagwibodu_answer.h $(PREFIX)/include
	install -m 644 $(foreach name,$(LIBRARIES),$(call archive,$(name))) $(PREFIX)/lib
	for name in $(LIBRARIES); do sed 's|@PREFIX@|$(abspath $(PREFIX))|; s|@VERSION@|$(VERSION)|' include/$$name.pc.in > $(PREFIX)/lib/pkgconfig/$$name.pc || exit 1; done

# The example hosts in C, built with what install gives; the console's on a heap that begins small and grows, told by `show`, and in a
# buffer in which most is refused; the ward's remark, shortened on a full heap; the form editor, that asks before a record moves; the
# morning's start-up, of which `show`, and the second program too, tell what a sweep gave back; two lists on one heap that is opened
# once, of which both tell that nothing is left between them; the handset that takes over the console's records, told by `show` too; and
# the upgrade, on a heap from before classes were closed, of which both tell how an old page leaves.
# The pkg-config files lead to headers and archives, and all are C++ too.
INSTALLED = out/installed
HOST = $(CC) $(CFLAGS) -I$(INSTALLED)/include
EXAMPLES = console remark editor morning lists handset
TOLD = console-heap morning-before morning-after lists-heap handset-heap upgrade-old upgrade-before upgrade-after
example: lib
	$(call proved,show)
	$(MAKE) --no-print-directory files PREFIX=$(INSTALLED)
	for name in $(EXAMPLES); do $(HOST) -o out/$$name examples/$$name.c $(LIBRARIES:%=$(INSTALLED)/lib/lib%.a) && out/$$name > out/$$name.out && diff examples/$$name.out out/$$name.out && cat out/$$name.out || exit 1; done
	$(HOST) -DLENGTH=4500 -o out/console-small examples/console.c $(INSTALLED)/lib/libjagwibodu.a
	out/console-small > out/console-small.out
	diff examples/console-small.out out/console-small.out
	out/console out/console-heap.heap > out/console.out
	out/morning out/morning-before.heap out/morning-after.heap > out/morning.out
	out/lists out/lists-heap.heap > out/lists.out
	out/handset out/handset-heap.heap > out/handset.out
	python3 compare/former.py out/upgrade-old.heap
	$(HOST) -o out/upgrade examples/upgrade.c $(INSTALLED)/lib/libjagwibodu.a
	out/upgrade out/upgrade-old.heap out/upgrade-before.heap out/upgrade-after.heap > out/upgrade.out
	diff examples/upgrade.out out/upgrade.out
	cat out/upgrade.out
	for heap in $(TOLD); do $(call program,show) < out/$$heap.heap | diff examples/$$heap.out - && python3 compare/report.py out/$$heap.heap | diff examples/$$heap.out - || exit 1; done
	if command -v pkg-config > /dev/null; then for name in $(LIBRARIES); do PKG_CONFIG_PATH=$(INSTALLED)/lib/pkgconfig pkg-config --cflags --libs $$name | grep -q "^-I$(abspath $(INSTALLED))/include -L$(abspath $(INSTALLED))/lib -l$$name *\$$" || exit 1; done; fi
	if command -v c++ > /dev/null; then c++ -std=c++11 -Wall -Wextra -Werror -fsyntax-only -x c++ -I$(INSTALLED)/include $(wildcard examples/*.c); fi

# The figures that are run, long random runs and damaged heaps, and the stack: the library against the second program.
compare: lib
	python3 compare/second.py
	python3 compare/compare.py --library $(LIBRARY) --number $(N) --damaged $(DAMAGED) --seed $(SEED)

# The same for the hand unit's library.
compare-hand: lib
	python3 compare/compare.py --shape hand --library $(HAND_LIBRARY) --number $(N) --damaged $(DAMAGED) --seed $(SEED)

# Every call that reads, and the report, on random heaps, damaged ones, and bytes that are none, against the second program's.
compare-ask:
	$(call proved,ask)
	mkdir -p out
	python3 compare/answers.py $(ASKED) $(SEED) $(call program,ask)

# The report program itself, a start a heap; compare-ask has many more of the same reports from a single start.
compare-show:
	$(call proved,show)
	mkdir -p out
	python3 compare/reports.py $(SHOWN) $(SEED) $(call program,show)

# The twin that bench measures against must itself be right.
compare-twin:
	python3 compare/compare.py --library bench/twin.c --prefix twin_ --number $(N) --damaged $(DAMAGED) --seed $(SEED)
compare-twin-hand:
	python3 compare/compare.py --shape hand --library bench/twin.c --prefix twin_ --cflags=-DTWIN_WORD=4 --number $(N) --damaged $(DAMAGED) --seed $(SEED)

# Instructions of the library's calls against the twin's, and of the hand unit's.
bench: lib
	python3 bench/table.py --library $(LIBRARY)
	python3 bench/table.py --shape hand --library $(HAND_LIBRARY)
