# uimg: `make help` lists the targets. bin/uimg is built again only if a source below it is newer.
RT ?= rt
PREFIX ?= /usr/local
IMAGE ?= examples/abc-kernel.img
export RT

.PHONY: all demo try check test gate wrong-bodies definitions contracts lib lib-test wheel json-test farm-test \
	install install-completions install-wrappers install-lib deb release arm64-test peers boot-test uboot-tests signatures bench clean help
.NOTPARALLEL:

## make          proves the program and all crates below it, and builds bin/uimg
all: bin/uimg
	@echo "bin/uimg is up to date"

# The processor that programs and libraries are compiled for, by default that of the last build, and
# x86-64-v2 at first. CPU=x86-64-v3 sums faster.
CPU ?= $(filter-out default,$(patsubst bin/processor-%,%,$(wildcard bin/processor-*)))
export CPU
PROCESSOR = bin/processor-$(or $(CPU),default)
# For a release, only the one of the command line or the environment counts.
ASKED = $(if $(filter file,$(origin CPU)),,$(CPU))

$(PROCESSOR):
	@mkdir -p bin && rm -f bin/processor-* && touch $@

bin/uimg: $(shell scripts/sources.sh uimg) $(PROCESSOR)
	@scripts/build.sh uimg

bin/uimg_peers: $(shell scripts/sources.sh uimg_peers)
	@scripts/build.sh uimg_peers

## make demo     lists an image (IMAGE=path): without bin/uimg first unproved, in about a minute; then proved
demo:
	@scripts/demo.sh $(IMAGE)

## make try ARGS="verify examples/kernel.itb"   runs the program unproved, with run-time checks
try:
	@scripts/try.sh $(ARGS)

## make check CRATE=uimg_its   proves a changed crate and runs its tests; without it, all changed
check:
	@scripts/needs.sh rt python3
	@python3 scripts/check.py $(CRATE)

## make test     runs all tests and examples, compiled with run-time checks; proves nothing
test:
	@scripts/needs.sh rt python3
	@python3 scripts/test.py

## make gate     what a change must pass: make test, the proofs, sentinels, command lines, the library
gate:
	@scripts/needs.sh rt python3
	@python3 scripts/gate.py

## make wrong-bodies CRATE=uimg_its   tries all wrong bodies, which the prover must refuse
wrong-bodies:
	@scripts/needs.sh rt python3
	@python3 scripts/lots.py $(CRATE)

## make definitions CRATE=uimg_map   prints what each file of a crate's specs/ defines; without it,
##               counts the definitions of `run` and `make`, and writes the counts into docs/DEFINITIONS.md
definitions:
	@scripts/needs.sh python3
	@python3 scripts/declarations.py definitions $(CRATE)

## make contracts CRATE=uimg_its   lists a crate's public functions with their clauses; without it,
##               how much of each crate is under a contract
contracts:
	@scripts/needs.sh python3
	@python3 scripts/declarations.py contracts $(CRATE)

## make lib      proves the library for C, and builds libuimg.a, libuimg_block.a, libuimg.so in lib/
lib: lib/libuimg.a
	@echo "lib/ is up to date"

lib/libuimg.a: $(shell scripts/sources.sh uimg_c) $(wildcard library/* include/*) $(PROCESSOR)
	@scripts/lib.sh

## make lib-test tests the library from C and Python against the program; tries the bindings for Rust,
##               Python, Go and C++, and runs valgrind, if they are installed
lib-test: lib/libuimg.a bin/uimg
	@scripts/needs.sh python3 cc
	@python3 scripts/lib_test.py bin/uimg lib

## make wheel    builds the wheel of bindings/python with the library inside, in lib/; needs no network
wheel: lib/libuimg.a
	@scripts/needs.sh python3
	@LIBUIMG_DIR=lib python3 bindings/python/backend.py lib

## make json-test   validates `uimg check --json`, `info`, `unpack --json` and `diff --json` by docs/*.schema.json, with
##               python3-jsonschema
json-test: bin/uimg
	@scripts/needs.sh python3
	@python3 scripts/json_test.py bin/uimg

## make farm-test   kills examples/farm, resumes it, and changes images, with GNU parallel
farm-test: bin/uimg
	@scripts/needs.sh python3
	@python3 scripts/farm_test.py bin/uimg

## make install  installs the program, its manual pages, completions and wrappers (which leave signing
##               to u-boot-tools) below PREFIX (/usr/local), with OLD_NAMES=1 also as mkimage and
##               dumpimage; and the library, if it was built
install: bin/uimg install-completions install-wrappers
	install -D -m 755 bin/uimg $(TO)/bin/uimg
	for name in $(NAMES); do ln -sf uimg $(TO)/bin/$$name || exit; done
	install -d $(TO)/share/man/man1 $(TO)/share/man/man7
	install -m 644 docs/uimg.1 docs/uimg-mkimage.1 docs/uimg-dumpimage.1 $(TO)/share/man/man1
	install -m 644 docs/uimg-faults.7 $(TO)/share/man/man7
	test ! -f lib/libuimg.a || $(MAKE) --no-print-directory install-lib

# Where the files go, and the program's other names. Those of mkimage and dumpimage themselves have the
# completions of uimg-mkimage and uimg-dumpimage, with the other name in them.
TO = $(DESTDIR)$(PREFIX)
NAMES = uimg-mkimage uimg-dumpimage $(if $(OLD_NAMES),mkimage dumpimage)

install-completions:
	mkdir -p "$(TO)/share/bash-completion/completions" "$(TO)/share/zsh/site-functions" "$(TO)/share/fish/vendor_completions.d"
	put() { sed "s/$$of/$$name/g" completions/$$1 > "$(TO)/share/$$2" && chmod 644 "$(TO)/share/$$2"; }; \
	for name in uimg $(NAMES); do \
		case $$name in uimg*) of=$$name ;; *) of=uimg-$$name ;; esac; \
		put $$of.bash bash-completion/completions/$$name && put _$$of zsh/site-functions/_$$name && \
			put $$of.fish fish/vendor_completions.d/$$name.fish || exit; \
	done

install-wrappers:
	install -d "$(TO)/lib/uimg/wrappers"
	install -m 755 wrappers/mkimage wrappers/dumpimage "$(TO)/lib/uimg/wrappers"
	install -m 644 wrappers/common.sh "$(TO)/lib/uimg/wrappers"

# Programs find the shared library after the linker's cache is updated.
install-lib:
	install -d "$(TO)/lib/pkgconfig" "$(TO)/include" "$(TO)/share/man/man3"
	install -m 644 docs/libuimg.3 "$(TO)/share/man/man3"
	install -m 644 include/uimg.h include/uimg_block.h "$(TO)/include"
	install -m 644 lib/libuimg.a lib/libuimg_block.a lib/libuimg.so.0 "$(TO)/lib"
	ln -sf libuimg.so.0 "$(TO)/lib/libuimg.so"
	version=$$(sed -n 's/^pub const VERSION.*"\(.*\)".*/\1/p' crates/uimg_requests/src/version.rt) && \
		sed "s#@PREFIX@#$(PREFIX)#; s#@LIBDIR@#$(PREFIX)/lib#; s#@VERSION@#$$version#" library/libuimg.pc.in \
			> "$(TO)/lib/pkgconfig/libuimg.pc"
	test -n "$(DESTDIR)" || test "$$(id -u)" != 0 || ldconfig

## make deb      packs both, with documents and examples, as Debian packages in out/
deb: bin/uimg lib/libuimg.a
	@scripts/deb.sh

## make release  makes archives and Debian packages for x86-64 and 64-bit ARM, in release/
release:
	@scripts/needs.sh rt python3 git gcc ld objcopy ar aarch64-linux-gnu-gcc dpkg-buildpackage dh lintian
	@CPU=$(ASKED) python3 scripts/release.py

## make arm64-test   tests the program and the library for 64-bit ARM under qemu
arm64-test:
	@scripts/needs.sh rt python3 gcc ld objcopy ar prlimit aarch64-linux-gnu-gcc qemu-aarch64-static
	@CPU=$(ASKED) python3 scripts/release.py --programs
	@python3 scripts/arm64_test.py out/release

## make peers    compares the program with the real mkimage, dumpimage and dtc, and its commands with each
##               other on hostile images; prints the table for docs/PEERS.md
peers: bin/uimg bin/uimg_peers
	@scripts/needs.sh python3
	@python3 peers/peers.py bin/uimg bin/uimg_peers
	@python3 peers/strict.py bin/uimg
	@python3 peers/hostile.py bin/uimg

## make boot-test   compares strict checks and unpacking with U-Boot itself, in qemu; prints a table for
##               docs/PEERS.md
boot-test: bin/uimg
	@scripts/needs.sh python3 mkimage qemu-system-aarch64 qemu-system-arm qemu-system-i386
	@python3 peers/boot.py bin/uimg

## make uboot-tests   runs U-Boot's own tests with its tools, with the program by their names, and with
##               the wrappers; fetches and compiles U-Boot of Debian's source package, in out/uboot
uboot-tests: bin/uimg
	@scripts/needs.sh python3
	python3 peers/uboot_tests.py bin/uimg out/uboot

## make signatures   compares `check --key` with U-Boot's fit_check_sign on signed, attacked and mutated
##               images; fetches and compiles it from Debian's source package, in out/uboot
signatures: bin/uimg
	@scripts/needs.sh python3
	@python3 peers/signatures.py bin/uimg out/uboot

## make bench    times the program of release/, or else bin/uimg, beside mkimage and dumpimage, and
##               writes bench/TABLE.md and bench/chart.svg
bench: bin/uimg
	@scripts/needs.sh python3
	@mkdir -p out
	@python3 bench/bench.py > out/TABLE.md || { cat out/TABLE.md; exit 1; }
	@cp out/TABLE.md bench && python3 bench/chart.py bench/TABLE.md bench/chart.svg && cat bench/TABLE.md

## make clean    removes all that was built, and what the prover kept
clean:
	rm -rf bin lib out release crates/*/out

## make help     lists the targets
help:
	@sed -n 's/^## //p' Makefile
