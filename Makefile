# make: prove and build all · make list: the main job on a sample · make test: all tests · make try: the C programs
# make soak: the comparison on as many tracks as one likes · make bench: times beside the reference and the fast implementation
# make packs: the packs that the times are measured on
# make times: the seconds of each crate's check · make fmt: the layout of every file
SHELL := /bin/bash
.SHELLFLAGS := -eo pipefail -c
MAKEFLAGS += --no-print-directory
PROGRAMS := tracklist trackwalk trackdump trackpair
.PHONY: all list test prove host-test programs $(PROGRAMS) lib examples try tried soak packs bench times sample fmt clean

LIB := target/staticlib/libstation.a
EXAMPLES := target/examples/station target/examples/reader target/examples/cells target/examples/cylinder
CARGO := cargo --offline
CFLAGS ?= -O2
SOAK ?= 200000
SEED ?= 1000000
PACK_SEED ?= 1

all:
	rt all check
	$(MAKE) programs examples

# The main job: the sectors of a sample track.
list: tracklist
	target/bin/tracklist < samples/case5.bin

# The gate: every crate proved from nothing, every must-fail edit refused, every program run, then the host tests over the proved library.
# Its last line is the last line of 'rt ci'.
test: prove host-test
	@tail -n 1 build/ci.log

# 'rt ci' lets an edit pass that it cannot apply or read, and counts it as bad: here that fails too. The programs that it proved and ran are kept.
prove:
	@mkdir -p build target/bin
	rt ci 2>&1 | tee build/ci.log
	@grep -q '^rt: ok;' build/ci.log || { echo "'rt ci' did not say 'rt: ok'"; exit 1; }
	@! grep -qE '^rt: ok;.*, [1-9][0-9]* bad' build/ci.log || { grep 'BAD EDIT' build/ci.log || true; echo "bad must-fail edits: mend them"; exit 1; }
	@for p in $(PROGRAMS); do $(call renew,crates/$$p/out/$$p,target/bin/$$p); done

host-test: prove
	$(MAKE) examples
	$(MAKE) tried
	cd host && $(CARGO) test --quiet

# A file is copied where its copy differs.
renew = cmp -s $(1) $(2) || cp $(1) $(2)

# The proved programs. 'rt run' also runs what it builds, here on no input.
programs: $(PROGRAMS)

$(PROGRAMS):
	@mkdir -p build target/bin
	@cd crates/$@ && rt run < /dev/null > ../../build/$@.log 2>&1 || { cat ../../build/$@.log; exit 1; }
	@$(call renew,crates/$@/out/$@,target/bin/$@)

# The proved library as an archive for C and Rust, and as others the check alone and a walk from its start: those of crates station_c, crc_ffi and walk_ffi.
lib:
	@mkdir -p target/staticlib
	cd crates/station_c && rt lib
	@$(call renew,crates/station_c/out/libstation_c.a,$(LIB))
	cd crates/crc_ffi && rt lib
	@$(call renew,crates/crc_ffi/out/libcrc_ffi.a,target/staticlib/libcrc_ffi.a)
	cd crates/walk_ffi && rt lib
	@$(call renew,crates/walk_ffi/out/libwalk_ffi.a,target/staticlib/libwalk_ffi.a)

# The C programs.
examples: lib
	$(MAKE) $(EXAMPLES)

target/examples/%: examples/%.c include/iso3561.h $(LIB)
	mkdir -p $(@D)
	$(CC) -std=c99 -Wall -Wextra -pedantic $(CFLAGS) -Iinclude $< $(LIB) -o $@

# The C station makes the sample's very bytes, tracklist lists them, and the C reader reads them and prints their layout,
# and of a defective track with its alternative.
# The third program sends a track to bit cells and reads it back, and the fourth sends three tracks to one file and reads them back.
try: tracklist examples
	$(MAKE) tried

tried:
	target/examples/station target/examples/case5.bin
	cmp target/examples/case5.bin samples/case5.bin
	target/bin/tracklist < target/examples/case5.bin
	target/examples/reader target/examples/case5.bin
	target/examples/reader samples/defective.bin samples/alternative.bin
	target/examples/cells target/examples/cells.bin
	target/examples/cylinder target/examples/cylinder.bin

# As many seeds as one likes: make soak SOAK=1000000 SEED=5000000
soak: lib
	cd host && ISO3561_SOAK=$(SOAK) ISO3561_SEED=$(SEED) $(CARGO) test -p station -p crc -p walk --test reading --test listing --test writing --test rules --test gaps --test bursts --test bit_cells --test cylinder --test check --test walk

# Three packs of 2,030 tracks in files, sound, damaged and of cards, from a seed: make packs PACK_SEED=7
packs: lib
	cd host && $(CARGO) run --release --quiet -p bench --bin packs -- ../build/packs $(PACK_SEED)

# Times beside the reference, and over the packs beside the fast implementation.
bench: packs
	cd host && $(CARGO) run --release --quiet -p bench -- ../build/packs

# The seconds of each crate's check, from nothing and one crate at a time, and of the whole.
times:
	@mkdir -p build
	@start=$$(date +%s); last=$$start; \
	rt all verdict --jobs 1 2>&1 | tee build/times.log | while IFS= read -r line; do case $$line in \
	"== summary") ;; \
	"== "*) now=$$(date +%s); echo "$${line#== } $$((now - last))"; last=$$now ;; \
	esac; done || { cat build/times.log; exit 1; }; \
	echo "all $$(($$(date +%s) - start))"

# The samples made anew by the reference; the gate runs the programs on the same bytes.
sample:
	cd host && $(CARGO) run --quiet -p reference --example sample > ../samples/case5.bin
	cd host && $(CARGO) run --quiet -p reference --example sample_pair -- ../samples
	for c in tracklist trackwalk trackdump; do cp samples/case5.bin crates/$$c/stdin; done
	cp samples/defective.bin samples/alternative.bin crates/trackpair/data/

fmt:
	@for c in crates/*; do (cd $$c && rt fmt); done
	cd host && cargo fmt

clean:
	rm -rf build target host/target crates/*/out
