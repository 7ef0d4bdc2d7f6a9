# make help tells the targets.
CC = cc
CFLAGS = -std=c11 -Wall -Wextra -Wpedantic -O2 $(WERROR)
PREFIX ?= /usr/local
INCLUDEDIR ?= $(PREFIX)/include
LIBDIR ?= $(PREFIX)/lib
BINDIR ?= $(PREFIX)/bin
MANDIR ?= $(PREFIX)/share/man
VERSION := $(shell sed -n 's/^\#define ADK_VERSION "\(.*\)"$$/\1/p' include/adderknot.h)
VENDOR =
ARGS =

archive = target/staticlib/libadderknot.a
# The L1 cache, of which the library has nothing for C: only the bench builds it, to measure it.
cache_archive = target/staticlib/libl1bench.a
bench = target/bench
programs = $(addprefix $(bench)/,cached calls compare count example hand-over join joins score score-vendor shallow speed)
programs += $(addprefix $(bench)/,isolated pieces replay_model)
vendors = $(patsubst bench/mistakes/%.edit,$(bench)/vendor-%.so,$(wildcard bench/mistakes/*.edit)) \
    $(patsubst tests/score/hostile/%.c,$(bench)/hostile-%.so,$(wildcard tests/score/hostile/*.c)) \
    $(bench)/model.so $(bench)/private.so
programs += $(addprefix $(bench)/,judge-output judged records tallies tally)
# The comparisons of joins, of records, of calls by their number, of tallies and of judged outputs, with a mistake in the
# model, for each; and two histories made on the model with a mistake by which a guest sees another.
mistaken = $(patsubst bench/join_mistakes/%.edit,$(bench)/joins-%,$(wildcard bench/join_mistakes/*.edit)) \
    $(patsubst bench/record_mistakes/%.edit,$(bench)/records-%,$(wildcard bench/record_mistakes/*.edit)) \
    $(patsubst bench/call_mistakes/%.edit,$(bench)/compare-%,$(wildcard bench/call_mistakes/*.edit)) \
    $(patsubst bench/tally_mistakes/%.edit,$(bench)/tallies-%,$(wildcard bench/tally_mistakes/*.edit)) \
    $(patsubst bench/judge_mistakes/%.edit,$(bench)/judged-%,$(wildcard bench/judge_mistakes/*.edit)) \
    $(patsubst bench/isolation_mistakes/%.edit,$(bench)/isolated-%,$(wildcard bench/isolation_mistakes/*.edit))
comparison = $(addprefix bench/,lists.c met.c both.c) $(night)
tallying = $(addprefix bench/,summaries.c history.c numbered.c) $(night)
judging = bench/output.c $(night)
headers = $(wildcard include/*.h bench/*.h)
night = $(addprefix bench/,night.c damage.c form.c gsb.c lent.c store.c chance.c tell.c)
scoring = $(addprefix bench/,account.c cover.c csv.c figures.c judge.c order.c page.c parts.c recording.c result.c sha256.c \
    text.c touched.c vendor.c watch.c window.c)

# What records a night and replays it.
replayed = $(addprefix $(bench)/,score score-vendor model.so replay_model) target/bin/replay

.PHONY: all bench run score speed replay-speed counts figures listing replay test install uninstall clean tools help
.PHONY: browser compiler kit
.DELETE_ON_ERROR:
.PRECIOUS: $(bench)/vendor-%.c $(bench)/joins-%.c $(bench)/records-%.c $(bench)/compare-%.c $(bench)/tallies-%.c \
    $(bench)/judged-%.c $(bench)/isolated-%.c

all: $(archive) ## prove the library and build target/staticlib/libadderknot.a

bench: $(programs) $(vendors) $(mistaken) ## build the C programs, and vendors' libraries to try the score on

run: $(bench)/compare ## compare the library with the model, on two million calls of the small store and two million of the large one
	$(bench)/compare $(ARGS)
	$(bench)/compare --large $(ARGS)

score: $(bench)/score $(bench)/score-vendor $(bench)/model.so ## score a vendor's library: make score VENDOR=./vendor.so ARGS='--opaque --report score.html'
	$(bench)/score $(if $(VENDOR),--vendor '$(VENDOR)') $(ARGS)

speed: $(bench)/speed ## time the library against the model
	$(bench)/speed $(ARGS)

replay-speed: $(replayed) ## time the program replay against the model's, on a recorded night
	bench/replay_speed.sh $(ARGS)

counts: tools $(bench)/count ## count the instructions of library and model, or of each function in a case: make counts ARGS=7
	bench/counts.sh $(ARGS)

figures: tools $(bench)/speed $(bench)/count $(bench)/shallow $(replayed) ## write docs/FIGURES.md; LOG=FILE: what the gate printed, for the times of checks
	bench/figures.sh $(LOG) > $(bench)/FIGURES.md && mv $(bench)/FIGURES.md docs/FIGURES.md

listing: target/bin/listing ## build the listing program and run it on the example of README.md
	tests/listing/raw tests/listing/example.hex | target/bin/listing

replay: target/bin/replay ## build the replay program and run it on calls that a person can read
	tests/listing/raw tests/replay/example.hex | target/bin/replay

test: ## the whole gate
	.ci/run

# What install installs, as lines of mode, file and place.
installed = \
    644:include/adderknot.h:$(INCLUDEDIR)/adderknot.h \
    644:include/adderknot_gsb.h:$(INCLUDEDIR)/adderknot_gsb.h \
    644:include/adderknot_record.h:$(INCLUDEDIR)/adderknot_record.h \
    644:$(archive):$(LIBDIR)/libadderknot.a \
    644:$(bench)/adderknot.pc:$(LIBDIR)/pkgconfig/adderknot.pc \
    755:$(bench)/score:$(BINDIR)/score \
    755:$(bench)/score-vendor:$(BINDIR)/score-vendor \
    755:target/bin/listing:$(BINDIR)/listing \
    755:target/bin/replay:$(BINDIR)/replay \
    644:man/adderknot.3:$(MANDIR)/man3/adderknot.3 \
    644:man/score.1:$(MANDIR)/man1/score.1 \
    644:man/listing.1:$(MANDIR)/man1/listing.1 \
    644:man/replay.1:$(MANDIR)/man1/replay.1

# Of such a line, the file and the place.
file_of = $(word 2,$(subst :, ,$1))
place_of = $(DESTDIR)$(word 3,$(subst :, ,$1))

install: $(foreach i,$(installed),$(call file_of,$i)) ## install headers, archive, programs and manual pages below PREFIX (/usr/local); DESTDIR is heeded
	$(foreach i,$(installed),install -D -m $(firstword $(subst :, ,$i)) $(call file_of,$i) "$(call place_of,$i)" &&) true

uninstall: ## remove what install installs
	rm -f $(foreach i,$(installed),"$(call place_of,$i)")

$(bench)/adderknot.pc: adderknot.pc.in include/adderknot.h FORCE
	mkdir -p $(bench)
	sed 's|@PREFIX@|$(PREFIX)|; s|@INCLUDEDIR@|$(INCLUDEDIR)|; s|@LIBDIR@|$(LIBDIR)|; s|@VERSION@|$(VERSION)|' $< > $@

FORCE:

clean: ## remove all that was built, and what rt keeps of the crates
	rm -rf target crates/*/out

# Installs these packages of Debian's if one of these commands is missing; a mirror may fail once.
define need
	@for tool in $1; do \
	    command -v $$tool >/dev/null || missing=1; \
	done; \
	for try in 1 2 3; do \
	    [ -n "$$missing" ] || exit 0; \
	    apt-get update -qq && \
	        DEBIAN_FRONTEND=noninteractive apt-get install -y -qq --no-install-recommends $2 >/dev/null && exit 0; \
	    sleep 5; \
	done; \
	echo "make: cannot install $2" >&2; \
	exit 1
endef

# Only the test of the page needs a browser, and it is large.
browser:
	$(call need,chromium,chromium)

tools: compiler ## install from Debian's packages what the tests need and a fresh machine may lack
	$(call need,objdump pkg-config valgrind xxd man g++,binutils pkg-config valgrind xxd man-db g++)

compiler:
	$(call need,$(CC),gcc libc6-dev)

help: ## this text
	@awk -F ':.*## ' '/^[a-z-]+:.*## / { printf "make %-12s %s\n", $$1, $$2 }' Makefile

kit:
	@command -v rt >/dev/null || { \
	    echo "make: rt is missing. It is the command of the Rattle kit, which proves and compiles the library; install" \
	        "the kit and put rt on the PATH. The model needs no kit: make $(bench)/model.so builds it." >&2; \
	    exit 1; }

# What rt makes of a crate, and keeps of its proofs, stands in the crate's out/, which is not among the sources.
sources = crates.txt $(shell find crates -name out -prune -o \( -name '*.rt' -o -name '*.antt' \) -print)

$(archive) $(cache_archive): target/staticlib/lib%.a: $(sources) | kit compiler
	cd crates/$* && rt lib
	install -D -m 644 crates/$*/out/lib$*.a $@

# One rt at a time.
$(cache_archive): | $(archive)

# rt run also runs what it built, here on nothing.
target/bin/listing target/bin/replay: target/bin/%: $(sources) | kit
	cd crates/$* && rt run < /dev/null > /dev/null
	install -D crates/$*/out/$* $@

$(bench)/%: bench/%.c $(headers) $(archive)
	mkdir -p $(bench)
	$(CC) $(CFLAGS) -Iinclude $(filter %.c,$^) $(filter %.a,$^) $(LDLIBS) -o $@

$(bench)/cached $(bench)/calls $(bench)/compare $(bench)/count $(bench)/joins $(bench)/judged $(bench)/records \
    $(bench)/shallow $(bench)/speed $(bench)/tallies: bench/model.c
$(bench)/cached $(bench)/count $(bench)/shallow $(bench)/speed: bench/model_cache.c $(cache_archive)
$(bench)/count $(bench)/shallow $(bench)/speed: bench/cases.c
$(bench)/calls $(bench)/count $(bench)/speed: bench/store.c
$(bench)/records: bench/chance.c
$(bench)/cached $(bench)/isolated $(bench)/score $(bench)/shallow: $(night)
$(bench)/compare: $(comparison)
$(bench)/tallies: $(tallying)
$(bench)/judged: $(judging)
$(bench)/joins $(bench)/shallow: bench/pairs.c
$(bench)/records $(bench)/shallow: bench/fields.c
$(bench)/compare $(bench)/score $(bench)/shallow: bench/numbered.c
$(bench)/shallow: bench/output.c bench/summaries.c
$(bench)/joins: bench/lent.c bench/chance.c
$(bench)/pieces: bench/chance.c
$(bench)/replay_model: bench/model.c
# A first call through the dynamic linker would take its stack.
$(bench)/shallow: LDLIBS = -Wl,-z,now
$(bench)/shallow: bench/deep.c bench/depth.c
$(bench)/score: $(scoring)

# The vendor's side of the score. Adderknot's library is not in it.
$(bench)/score-vendor: bench/host.c bench/window.c $(filter-out bench/tell.c,$(night)) $(headers) | compiler
	mkdir -p $(bench)
	$(CC) $(CFLAGS) -Iinclude $(filter %.c,$^) -ldl -o $@

# The examples of README.md, as they stand there: its blocks of C, but the fourth, which begins a vendor's library.
$(bench)/example: block = 1
$(bench)/hand-over: block = 2
$(bench)/join: block = 3
$(bench)/tally: block = 5
$(bench)/judge-output: block = 6
$(bench)/example $(bench)/hand-over $(bench)/join $(bench)/tally $(bench)/judge-output: README.md $(wildcard include/*.h) $(archive)
	mkdir -p $(bench)
	awk -v n=$(block) '/^```c$$/ { on = ++seen == n; next } /^```$$/ { on = 0 } on' README.md > $@.c
	$(CC) $(CFLAGS) -Iinclude $@.c $(archive) -o $@

# The model under the names of adderknot.h: as it is, with each of the mistakes, hostile, and with a state of its own.
shared = $(CC) $(CFLAGS) -shared -fPIC -Iinclude -Ibench
as_vendor = $(shared) -include bench/rename.h

$(bench)/model.so: bench/model.c $(headers) | compiler
	mkdir -p $(bench)
	$(as_vendor) $< -o $@

# The model with a mistake, which the first prerequisite says; and a comparison with it.
define edited
	mkdir -p $(bench)
	awk -f bench/edit.awk $< bench/model.c > $@
endef
with_mistake = $(CC) $(CFLAGS) -Iinclude -Ibench $(filter %.c %.o,$^) $(archive) -o $@

# Of a program, and of the folder that holds its mistakes.
define from_edits
$(bench)/$1-%.c: bench/$2/%.edit bench/model.c bench/edit.awk
	$$(edited)
endef
$(eval $(call from_edits,vendor,mistakes))
$(eval $(call from_edits,joins,join_mistakes))
$(eval $(call from_edits,records,record_mistakes))
$(eval $(call from_edits,compare,call_mistakes))
$(eval $(call from_edits,tallies,tally_mistakes))
$(eval $(call from_edits,judged,judge_mistakes))
$(eval $(call from_edits,isolated,isolation_mistakes))

$(bench)/joins-%: $(bench)/joins-%.c bench/joins.c bench/pairs.c bench/lent.c bench/chance.c $(headers) $(archive)
	$(with_mistake)

$(bench)/records-%: $(bench)/records-%.c bench/records.c bench/fields.c bench/chance.c $(headers) $(archive)
	$(with_mistake)

# All of a comparison but the model, compiled once.
define all_but_the_model
	mkdir -p $(bench)
	$(CC) $(CFLAGS) -Iinclude -r $(filter %.c,$^) -o $@
endef

$(bench)/comparison.o: bench/compare.c $(comparison) bench/numbered.c $(headers) | compiler
	$(all_but_the_model)

$(bench)/compare-%: $(bench)/compare-%.c $(bench)/comparison.o $(headers) $(archive)
	$(with_mistake)

$(bench)/tallies.o: bench/tallies.c $(tallying) $(headers) | compiler
	$(all_but_the_model)

$(bench)/tallies-%: $(bench)/tallies-%.c $(bench)/tallies.o $(headers) $(archive)
	$(with_mistake)

$(bench)/judged.o: bench/judged.c $(judging) $(headers) | compiler
	$(all_but_the_model)

$(bench)/judged-%: $(bench)/judged-%.c $(bench)/judged.o $(headers) $(archive)
	$(with_mistake)

# The two histories but the library, compiled once; the model is under the library's names.
$(bench)/isolation.o: bench/isolated.c $(night) $(headers) | compiler
	$(all_but_the_model)

$(bench)/isolated-%: $(bench)/isolated-%.c $(bench)/isolation.o bench/rename.h $(headers)
	$(CC) $(CFLAGS) -Iinclude -Ibench -include bench/rename.h $(filter %.c %.o,$^) -o $@

$(bench)/vendor-%.so: $(bench)/vendor-%.c $(headers) | compiler
	$(as_vendor) $< -o $@

$(bench)/hostile-%.so: tests/score/hostile/%.c tests/score/hostile/hostile.h bench/model.c $(headers) | compiler
	mkdir -p $(bench)
	$(shared) $< -o $@

$(bench)/private.so: bench/private.c bench/model.c $(headers) | compiler
	mkdir -p $(bench)
	$(shared) $(filter %.c,$^) -o $@
