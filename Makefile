# The commands of this repository. `make test` is the gate.
FRAMES ?= crates/replay/stdin
PREFIX ?= /usr/local
DESTDIR ?=
SEED ?= 2
# The header says which version this is.
VERSION := $(shell sed -n 's/^.define LW_VERSION "\(.*\)"/\1/p' include/logwhisker.h)

# What is proved and then built is made anew after a change of any source.
SOURCES := crates.txt $(wildcard crates/*/src/*.rt crates/*/specs/*.antt)

# The library for C: the static libraries of exported functions, in one archive.
EXPORTS := $(shell sed -n 's/^\([a-z_]*\) staticlib:.*/\1/p' crates.txt)
LIBRARY := target/staticlib/liblogwhisker.a

# The replay program, and with PLAIN=1 its sister, which runs the plain host.
REPLAY := $(if $(filter 1,$(PLAIN)),replay_plain,replay)
PROGRAM = crates/$(1)/out/$(1)

.PHONY: test check library replay calls demo bench soak install pictures clean

# The C programs are built as users build theirs: against an installed copy, here one below target/.
INSTALLED := target/installed
INSTALLED_LIB := $(INSTALLED)/lib/liblogwhisker.a
C_STRICT := -std=c11 -O2 -Wall -Wextra -Wpedantic -Wconversion -Werror
C_BUILD = $(CC) $(C_STRICT) $(CFLAGS) -I$(INSTALLED)/include
C_LINK = -L$(INSTALLED)/lib -llogwhisker $(LDLIBS)
# Options of the demonstration, such as DEMO='frames=3000 loss=10'; DEMO=help lists them.
DEMO ?=
DEMO_PROGRAMS := target/demo/card target/demo/relay target/demo/host

test:
	.ci/run

# Proves every crate that changed since it was last proved.
check:
	rt all check

# Proves, builds and runs the replay on a sample capture, or on FRAMES=file.
replay: $(call PROGRAM,$(REPLAY))
	@$< < $(FRAMES)

$(call PROGRAM,replay) $(call PROGRAM,replay_plain): $(SOURCES)
	@echo 'make $(@F): proves it and all below it first, which can take many minutes' >&2
	@tools/prove $(@F)
	@touch $@

# Proves and builds the library for C: target/staticlib/liblogwhisker.a.
library: $(LIBRARY)

# Builds target/bin/calls, which drives both ends by a script of calls, one a line.
calls: target/bin/calls

target/bin/calls: c/calls.c $(INSTALLED_LIB)
	@mkdir -p $(@D)
	$(C_BUILD) -o $@ $< $(C_LINK)

# Both ends as processes that talk by UDP on 127.0.0.1, with a relay between them that loses, repeats and reorders:
# c/demo.
demo: $(DEMO_PROGRAMS)
	@c/demo/run target/demo $(DEMO)

$(DEMO_PROGRAMS): target/demo/%: c/demo/%.c c/demo/common.c c/demo/common.h $(INSTALLED_LIB)
	@mkdir -p $(@D)
	$(C_BUILD) -o $@ $< c/demo/common.c $(C_LINK)

# Times the proved host and replay against plain Rust ones on this machine: docs/PERFORMANCE.md.
bench:
	$(MAKE) library $(call PROGRAM,replay)
	cd rust && cargo build --offline --locked --profile bench-release -p bench --features proved
	target/rust/bench-release/bench-ends
	target/rust/bench-release/bench-replay $(call PROGRAM,replay)

# What takes too long for the gate: a file of 1 GB through the replay, and the comparisons with the independent
# implementation ten times as long, from SEED=number on. It needs 1 GB of disk below target/.
soak:
	$(MAKE) library calls $(call PROGRAM,replay) $(call PROGRAM,replay_plain)
	cd rust && cargo test --offline --locked --release -p logwhisker --test streams -- --include-ignored --nocapture
	cd rust && LW_SEED=$(SEED) LW_INPUTS=12000000 LW_FRAMES=4000000 LW_LINES=20000000 LW_SCRIPTS=240 \
		LW_LISTS=4000 LW_LONG_LISTS=10 LW_CALLS_OF_CARD=6000000 LW_TEXTS=600000 LW_TABLES=4000 LW_BLOCKS=400000 \
		cargo test --offline --locked --release -p logwhisker -p reference --tests
	@echo 'soak: all the same from seed $(SEED) on'

# Puts header, static library and pkg-config file below PREFIX, with DESTDIR in front while copying: docs/C-API.md.
install: $(LIBRARY)
	install -d '$(DESTDIR)$(PREFIX)/include' '$(DESTDIR)$(PREFIX)/lib/pkgconfig'
	install -m 644 include/logwhisker.h '$(DESTDIR)$(PREFIX)/include/logwhisker.h'
	install -m 644 $(LIBRARY) '$(DESTDIR)$(PREFIX)/lib/liblogwhisker.a'
	{ echo 'prefix=$(PREFIX)'; sed 's/@VERSION@/$(VERSION)/' include/logwhisker.pc.in; } \
		> '$(DESTDIR)$(PREFIX)/lib/pkgconfig/logwhisker.pc'
	chmod 644 '$(DESTDIR)$(PREFIX)/lib/pkgconfig/logwhisker.pc'

$(INSTALLED_LIB): $(LIBRARY) include/logwhisker.h include/logwhisker.pc.in
	@$(MAKE) --no-print-directory install PREFIX='$(CURDIR)/$(INSTALLED)' DESTDIR=
	@touch $@

# One archive of those that the exports give, which have objects of different names.
$(LIBRARY): $(SOURCES)
	@[ -n '$(EXPORTS)' ] || { echo 'make library: crates.txt has no static library' >&2; exit 1; }
	@echo 'make library: proves it and all below it first, which can take many minutes' >&2
	@for crate in $(EXPORTS); do tools/prove $$crate || exit 1; done
	rm -rf target/objects $@
	mkdir -p target/objects $(@D)
	cd target/objects && for crate in $(EXPORTS); do ar x ../../crates/$$crate/out/lib$$crate.a || exit 1; done
	ar rcs $@ target/objects/*.o

# Makes the pictures anew; the gate asks for it after a change of crates.txt.
pictures:
	python3 docs/pictures/make.py

# Removes what was built, but not what is kept of the proofs, in crates/*/out: without that all is proved anew.
clean:
	rm -rf target
