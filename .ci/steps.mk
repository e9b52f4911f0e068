# The steps of `make test`, `make check` and `make whole`. Each is a target: `make test-wire` runs that suite, and first the proofs
# if it needs them. .ci/step writes what a step prints to out/steps/NAME.log, and .ci/count.py says how all of them ended.
#
# WITHOUT="broker crate" skips these steps, and the tests of other steps that need RabbitMQ or the Rust crate. Proofs can't be skipped.

# The program logic in which all of this is proved: `rt version` ends with it, whatever the kit is called.
LOGIC = logic dac8208d650f15bf
STEPS = out/steps
step = @.ci/step $(STEPS)/$@.log

# ---- the steps

# What needs only the kit and Python's standard library: nothing is proved.
PROGRAMS := $(patsubst crates/%/src/main.rt,%,$(wildcard crates/*/src/main.rt))
TESTED := $(sort $(foreach it,$(shell grep -rl '\#\[test\]' crates/*/src),$(word 2,$(subst /, ,$(it)))))
UNPROVED := $(PROGRAMS:%=%-runs) $(TESTED:%=%-tests) stored-output
# What needs no proofs, of which some suites are over generated/; what runs over what the proofs leave; and all.
OVER_GENERATED := c python rust languages web broker
OVER_PROOFS := show packages alloc-failures sizes wire counts crate
ALONE := docs lint test-scripts test-model test-vendor test-vectors $(OVER_GENERATED:%=test-%)
CHECKED := proofs test-generated $(ALONE) $(OVER_PROOFS:%=test-%) mutants

$(PROGRAMS:%=%-runs): %-runs:
	$(step) python3 -m tests.unproved runs $*

$(TESTED:%=%-tests): %-tests:
	$(step) python3 -m tests.unproved tests $*

# (make help shows this line for all of them)
stored-output: ## run one step of `make test`; the others are NAME-runs, of a program, and NAME-tests, of a crate with tests
	$(step) python3 -m tests.model.stored_output

docs: ## compare the pages with the sources (10 seconds)
	$(step) tests/pages.py

lint: ## check types, layouts, scripts and spelling of Python, C and Rust (a minute)
	$(step) tests/lint

$(filter test-%,$(ALONE)): test-%:
	$(step) tests/run $(or $(NAME_$*),$*) $(OPTIONS_$*)

fresh: ## try the README on a machine that has only the kit, as root
	$(step) tests/fresh.py README.md

clone: ## build from a clone on a machine without the kit, as root
	$(step) tests/clone.py --root

# (`rt ci` refuses links, which a build by CMake has. It puts back libraries that `rt check` has left, which may be older than what it
# proves: the steps below would build over these.)
proofs: ## prove all crates (an hour from nothing)
	@rm -rf out/build out/aarch64 crates/*/out/rlib
	$(step) rt ci $(if $(ANEW),$$(rt help | grep -om1 -e --anew))

test-generated: proofs
	$(step) packaging/generated.py --compare

# (make help shows this line in place of one for each suite)
test-show: ## test-NAME runs one suite: c, python, rust, web, broker .. over generated/; show, wire .. over the proofs
$(OVER_PROOFS:%=test-%): test-%: proofs
	$(step) tests/run $(or $(NAME_$*),$*) $(OPTIONS_$*)

mutants: proofs ## try mutants, which the prover must refuse (45 minutes; later only of what changed)
	$(step) tests/mutants.py --built $(ALL)

# What tests/run calls a suite, if it has another name there, and its options.
NAME_alloc-failures = memory/alloc-failures
NAME_sizes = memory/sizes
NAME_crate = oracle
NAME_broker = rabbitmq
OPTIONS_model = $(SEED)
OPTIONS_packages = $(ROOT)
OPTIONS_python = $(SEED)
OPTIONS_show = $(SEED)
OPTIONS_rust = $(SEED)
OPTIONS_broker = --tables $(TABLES)
# The defaults of these options. `make whole` gives others on the command line; the environment can't change them.
ANEW =
SEED =
ROOT =
ALL =
TABLES = 500

# ---- the runs

# What WITHOUT may name besides steps: what some tests need.
OF_TESTS = aarch64 clang codecs old-processor cargo-clippy rt rustfmt valgrind rustc
NAMES = $(patsubst test-%,%,$(UNPROVED) $(filter-out proofs,$(CHECKED)) fresh clone)
ifneq ($(filter-out $(NAMES) $(OF_TESTS),$(WITHOUT)),)
$(error WITHOUT: there is no step $(filter-out $(NAMES) $(OF_TESTS),$(WITHOUT)); there are: $(NAMES) $(OF_TESTS))
endif
export WITHOUT
HAS_CRATE = $(or $(AMQ_PROTOCOL_TYPES),$(wildcard $(or $(CARGO_HOME),$(HOME)/.cargo)/registry/cache/*/amq-protocol-types-10.6.3.crate))
NO_CRATE = neither AMQ_PROTOCOL_TYPES names the Rust crate's folder nor cargo has kept it

# Steps side by side, each to its end, and then how they ended. What they leave in their temporary folder goes at the end.
chosen = $(or $(filter-out $(WITHOUT) $(WITHOUT:%=test-%),$(1)),$(error WITHOUT names each step))
run = @set -e; rm -rf $(STEPS); begun=$$(date +%s); TMPDIR=$$(mktemp -d -t maolkint-XXXXXX); export TMPDIR; chmod 755 $$TMPDIR; \
    trap 'rm -rf $$TMPDIR' EXIT; trap 'exit 129' HUP; trap 'exit 130' INT; trap 'exit 143' TERM; \
    $(MAKE) --no-print-directory -k -j$(2) WITHOUT='$(WITHOUT)' $(MORE) $(chosen) || true; .ci/count.py $(STEPS) $$begun $(chosen)
needed = @rt version | grep -q '$(LOGIC)$$' || { echo "rt, of a Rattle toolchain with the $(LOGIC), is missing"; exit 1; }; .ci/setup --missing

test: ## run the tests that need only the Rattle toolchain, python3, make and git (about 5 minutes)
	$(call run,$(UNPROVED),$$(nproc))

check: override WITHOUT := $(strip $(WITHOUT) $(if $(HAS_CRATE)$(filter crate,$(WITHOUT)),,crate))
check: ## run everything else a change must pass (an hour or two; WITHOUT="broker crate" skips steps)
	$(needed)
	$(call run,$(CHECKED),20)

# Nothing is kept from earlier runs (a toolchain whose `rt ci` keeps proofs has --anew), and random inputs differ in each run.
whole: MORE = ANEW=yes SEED=--random ROOT=--root ALL=--all TABLES='10000 --rabbitmq=3.10.8 --rabbitmq=4.0.5'
whole: ## run everything from nothing, as root, before a release (some hours)
	$(if $(HAS_CRATE)$(filter crate,$(WITHOUT)),,$(error $(NO_CRATE) (WITHOUT=crate skips its step)))
	$(needed)
	$(call run,$(CHECKED) fresh clone,20)

.PHONY: test check whole $(UNPROVED) $(CHECKED) fresh clone
