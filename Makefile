# Daily work. `make test` is the gate; the rest eases the way there.
.PHONY: test toolchain check must-fail fmt dev skeletons paths staticlib bench bench-docs clean
.PHONY: deps-rust deps-peers deps-dxtbx deps-bench second-reader compare compare-short soak mar-trials dtrek-trials amend-trials compact-trials why-trials order-trials smallest-trials faults peers peers-formats compare-frames
.PHONY: deps cli cli-test demo

# What the gate runs after the proofs, in this order: targets of this file, one more line each.
AFTER_PROOFS += gate-test
AFTER_PROOFS += staticlib
AFTER_PROOFS += compare-short
AFTER_PROOFS += mar-trials
AFTER_PROOFS += dtrek-trials
AFTER_PROOFS += amend-trials
AFTER_PROOFS += compact-trials
AFTER_PROOFS += why-trials
AFTER_PROOFS += order-trials
AFTER_PROOFS += smallest-trials
AFTER_PROOFS += cli-test
AFTER_PROOFS += second-reader-test
AFTER_PROOFS += model
AFTER_PROOFS += python-test
AFTER_PROOFS += examples-test

# The whole gate: `rt ci` proves every crate, tries every must-fail edit and compares every program's output, whatever an earlier run
# of the same files on this machine has not; then the rest on what was proved. The last line is the prover's verdict.
test: toolchain
	@tools/deps python3
	@tools/gate $(AFTER_PROOFS)

.PHONY: gate-test

# What the gate prints, for recorded logs of the prover (tests/gate).
gate-test:
	@tests/gate/run.sh target/gate-test

# Says so where another toolchain than the pinned one is found. The proofs are checked by what is found.
toolchain:
	@pinned="$$(cat toolchain.txt)"; found="$$(rt version)"; \
	if [ "$$pinned" = "$$found" ]; then echo "toolchain: $$found"; \
	else echo "WARNING: the toolchain is '$$found', and this repository is pinned to '$$pinned' (toolchain.txt)" >&2; fi

# make check NAME=header: prove a crate and what it stands on, without the must-fail edits; with no NAME every crate.
check:
	$(if $(NAME),cd crates/$(NAME) && rt check,rt all check)

# make must-fail NAME=header: the edits that the prover must refuse.
must-fail:
	rt must-fail $(NAME)

# make fmt NAME=header: lays the crate's files out, as rt ci wants them; with no NAME those of every crate.
fmt:
	@for crate in $(if $(NAME),crates/$(NAME),crates/*/); do (cd "$$crate" && rt fmt) || exit 1; done

# make dev NAME=header: the edit loop, its output shortened to errors, goals and the verdict.
dev:
	tools/dev $(NAME) --allow-holes

# make skeletons NAME=header FN=read_lead: a function's proof files, with a hole at each goal.
skeletons:
	cd crates/$(NAME) && rt check --start $(NAME)::$(FN) --allow-holes

# make paths NAME=header FN=read_lead: the facts at hand at each goal of a function.
paths:
	tools/paths $(NAME) $(FN)

# The static library that C and Rust programs link. rt checks the crate of the exports again for it, so it is made only where it is stale.
LIBRARY := target/staticlib/libquayrudder.a
staticlib: $(LIBRARY)

$(LIBRARY): crates.txt $(shell find crates -path '*/out' -prune -o \( -name '*.rt' -o -name '*.antt' \) -print)
	@tools/deps python3
	@mkdir -p target
	@tools/prover target/staticlib.log quayrudder_c tools/staticlib

# Against plain C, FabIO and memcpy; the tables are printed.
bench: deps-bench
	$(MAKE) --no-print-directory -C bench run

# The same, with the tables put into docs/BENCHMARKS.md and docs/benchmarks.png drawn.
bench-docs: deps-bench
	$(MAKE) --no-print-directory -C bench docs

# Debian's packages for what follows, installed where they are missing: cargo from elsewhere will do.
deps-rust:
	@command -v cargo > /dev/null || tools/deps cargo-web rustc-web

deps-peers: deps-rust
	@tools/deps python3-fabio python3-numpy python3-matplotlib

# dxtbx, which is part of Debian's python3-cctbx, and CBFlib's programs: other readers of d*TREK images.
deps-dxtbx:
	@tools/deps python3-cctbx cbflib-bin

deps-bench: deps-peers
	@command -v gcc > /dev/null || tools/deps gcc libc6-dev
	@command -v clang > /dev/null || tools/deps clang

# The comparison with the second reader (tests/second_reader), over the static library.
SECOND_READER := target/second_reader/release/second_reader
# For glibc: memory of large cases is used again and not given back after each.
KEEP_MEMORY := MALLOC_MMAP_THRESHOLD_=33554432 MALLOC_TRIM_THRESHOLD_=1073741824
COMPARE = $(KEEP_MEMORY) $(SECOND_READER) compare $(if $(SEED),--seed $(SEED)) --case target/difference.case
MINUTES ?= 10

second-reader: deps-rust staticlib
	cd tests/second_reader && cargo build --quiet --release --offline --target-dir ../../target/second_reader

# make compare SEED=7: 20 seconds, with a new seed where none is given.
compare: second-reader
	$(COMPARE) --seconds 20

# The gate's run.
compare-short: second-reader
	$(COMPARE) --seconds 15

# make soak MINUTES=10: the same for longer.
soak: second-reader
	$(COMPARE) --seconds $$(( $(MINUTES) * 60 ))

# Fixed mar images against the answers written down in tests/second_reader/mar_trials.txt.
mar-trials: second-reader
	$(KEEP_MEMORY) $(SECOND_READER) mar-trials

# The same for d*TREK images and dtrek_trials.txt.
dtrek-trials: second-reader
	$(KEEP_MEMORY) $(SECOND_READER) dtrek-trials

# And for amends and amend_trials.txt.
amend-trials: second-reader
	$(SECOND_READER) amend-trials

# And for compactions and compact_trials.txt.
compact-trials: second-reader
	$(SECOND_READER) compact-trials

# And for the lines that decide and why_trials.txt.
why-trials: second-reader
	$(SECOND_READER) why-trials

# And for corrections in several orders and order_trials.txt.
order-trials: second-reader
	$(SECOND_READER) order-trials

# And for smallest forms and smallest_trials.txt.
smallest-trials: second-reader
	$(SECOND_READER) smallest-trials

# Twelve deliberate faults in copies of the library, which the comparison has to find.
faults: deps-rust
	tests/second_reader/faults.sh

# FabIO, dxtbx and CBFlib, Debian's readers and writers of the same formats, beside the library (docs/PEERS.md).
PYTHON := /usr/bin/python3 -B
PEERS := PYTHONPATH=python $(PYTHON) tests/peers/
peers: deps-peers deps-dxtbx second-reader peers-formats python-fabio-test
	$(PEERS)peers.py $(SEED)

# What the command's expand writes, read back by others.
peers-formats: deps-peers deps-dxtbx cli
	$(PEERS)formats.py $(SEED)

# Every file in frames/ read by the library, by the second reader and by FabIO.
compare-frames: deps-peers second-reader
	$(PEERS)compare_frames.py frames

# The command quayrudder (cli), from Debian's crates over the static library.
CLI := target/cli/release/quayrudder
DEBIAN := gcc libcbf-dev $(patsubst %,librust-%-dev,base64 chrono clap clap-complete csv image indicatif rayon rustix serde-json sha2 tempfile tiff users walkdir)

deps: deps-rust
	@tools/deps $(DEBIAN)

cli: deps staticlib
	cd cli && cargo build -q --release --offline --bins --examples

# Runs the command in every way: each refusal, the machine failing at every step, two processes at one holding.
cli-test: deps staticlib
	cd cli && cargo test -q --release --offline

.PHONY: second-reader-test model

# The second reader's own trials: values worked out by hand.
second-reader-test: deps-rust staticlib
	cd tests/second_reader && cargo test --quiet --release --offline --target-dir ../../target/second_reader

# The protocol of lock, record, files and purge as a model (tests/model), checked by spin.
model:
	@tools/deps gcc spin
	@tests/model/run.sh target/model

.PHONY: cluster-test

# The manual's Slurm job array and GNU parallel line over 20,000 holdings, against one plain run. Not in the gate: it needs large packages.
cluster-test: cli
	@tools/deps munge parallel slurm-wlm
	@tests/cluster/run.sh $(CLI) target/cluster

.PHONY: report-test

# The page of `quayrudder report` in headless Chromium: a small archive and one of 20,000 holdings. Not in the gate: it needs large packages.
report-test: cli
	@tools/deps chromium chromium-driver python3-selenium
	@tests/report/run.sh $(CLI) target/report

.PHONY: examples-test python-test python-fabio-test

# The README's frame, for examples.
EXAMPLE := target/example/example.sfrm
$(EXAMPLE): | cli
	@mkdir -p $(@D)
	@$(dir $(CLI))examples/example_frame $(@D)
	@$(CLI) write --header $(@D)/header.bin --pixels $(@D)/counts.raw --form 1+1 -o $@

include install/install.mk

# The examples in C, Python and shell (examples), and what they print.
examples-test: cli sharedlib $(EXAMPLE)
	@tools/deps python3-numpy
	@PATH="$(abspath $(dir $(CLI))):$$PATH" PYTHONPATH=$(abspath python) PYTHON="$(PYTHON)" examples/run.sh target/examples $(EXAMPLE) \
	    -Iinclude -L$(dir $(SHARED)) -lquayrudder -Wl,-rpath,$(abspath $(dir $(SHARED)))

# The Python module (python): the examples of its docstrings, and its tests. Its table of refusals is a copy of the page's.
python-test: cli sharedlib
	@tools/deps python3-numpy util-linux
	@cmp docs/REFUSALS.md python/quayrudder/refusals.md
	@PYTHONPATH=python $(PYTHON) python/tests/run.py

# The same of the FabIO plug-in, and the types by mypy. Part of make peers: it needs large packages.
python-fabio-test: deps-peers cli sharedlib
	@tools/deps mypy
	@PYTHONPATH=python $(PYTHON) python/tests/run.py --fabio
	cd python && mypy --cache-dir=../target/mypy quayrudder

# The main job on an example frame: README's first command.
demo: cli
	@cli/demo.sh $(CLI) target/demo

clean:
	rm -rf target
