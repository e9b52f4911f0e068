# Builds, tests, installs and packs the C library and the packages over it, of what generated/ has; `make help` lists the targets. `show`,
# `generated` and the tests call the Rattle toolchain, the others don't: `make` needs cmake and a C compiler, and packages what `make setup`
# installs.
OUT = out
# More for cmake, as -DCMAKE_INSTALL_LIBDIR=lib64.
CMAKE_FLAGS =
PREFIX = /usr/local
MANIFEST = $(OUT)/build/install_manifest.txt
.DEFAULT_GOAL = all
MAKEFLAGS += --no-print-directory

help: ## list the targets
	@sed -n 's/^\([a-z-]*\):[^#]*## /\1\t/p' $(MAKEFILE_LIST) | expand -t 14

setup: ## install what `make check` needs, as root (WITHOUT=broker leaves RabbitMQ out)
	@.ci/setup

include .ci/steps.mk

all: lib ## build the C library (plain `make` does this)

lib:
	cmake -S . -B $(OUT)/build $(CMAKE_FLAGS) && cmake --build $(OUT)/build

aarch64:
	cmake -S . -B $(OUT)/aarch64 --toolchain packaging/aarch64.cmake && cmake --build $(OUT)/aarch64

show: ## prove and build amqp_show by the Rattle toolchain (16 minutes on four cores), which `make` then installs and packs too
	cd crates/amqp_show && rt run -- --version

install: all ## install the C library below /usr/local, or PREFIX, and amqp_show if it is built
	umask 022 && cmake --install $(OUT)/build --prefix "$(PREFIX)"

uninstall: ## remove what was installed last
	@sed 's|^|$(DESTDIR)|' /dev/null $(wildcard $(MANIFEST)) | xargs -rd '\n' rm -fv
	@sed -n 's|^\(.*/amqp_values\)/.*|$(DESTDIR)\1|p' /dev/null $(wildcard $(MANIFEST)) | sort -u \
	    | while read -r it; do [ ! -d "$$it" ] || find "$$it" -depth -type d -empty -delete; done

dist: all aarch64 ## pack archives of the C library for x86-64 and aarch64
	packaging/pack $(OUT)/build $(OUT)/aarch64 $(OUT)/packed

deb: ## make packages of Debian for x86-64
	debian/rules clean binary

# By Debian's Python and nothing else.
wheel: ## make a wheel of the Python package for x86-64
	python3 packaging/wheels.py $(OUT)/wheel

wheels: ## make those for x86-64 and aarch64, as a release has them
	python3 packaging/wheels.py $(OUT)/wheel --all

web: ## make the page that shows a field table, out/web/amqp.html
	packaging/web.py $(OUT)/web/amqp.html

rust: ## build the Rust crate amqp-values
	cargo build --release --manifest-path bindings/rust/amqp-values/Cargo.toml --target-dir $(OUT)/cargo

generated: proofs ## prove what has changed, and write the compiled code in generated/
	packaging/generated.py

release: ## prove, test and make all of a release of HEAD, out/release
	packaging/release $(OUT)/release

clean: ## remove what these targets made
	rm -rf $(addprefix $(OUT)/,build aarch64 packed debian deb wheel web cargo python release steps mypy clippy)

.PHONY: help setup all lib aarch64 show install uninstall dist deb wheel wheels web rust generated release clean
