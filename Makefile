# make demo: builds the archive, compiles the example against it, and runs it. make archive: target/libhoglidra.a alone. make test: what the gate runs beside the proofs.
# make bench: the archive against the loops of the Rust, timed; make instructions: the same, counted by callgrind.
# make firmware CORE=armv5te: the archive for a printer's core; make test-firmware: all of them under qemu, with the tools that make firmware-tools installs.
archive = target/libhoglidra.a
compile = $(CC) -std=c99 -pedantic -Wall -Wextra -Werror -O2 -Iinclude

.PHONY: demo archive test test-archive test-c test-demo test-rust bench instructions firmware test-firmware firmware-tools
demo: target/ingredients
	target/ingredients

archive: $(archive)

test: test-archive test-c test-demo test-rust firmware

# The archive calls nothing that it does not hold: no heap, no C library. It has no variables: calls may run at once.
test-archive: $(archive)
	nm -u $(archive) > target/undefined
	! grep '^ ' target/undefined
	nm $(archive) > target/symbols
	! grep -i ' [bcdgs] ' target/symbols

# Trials, published examples, published answers and made cases through the archive, also with no byte there that is not needed; the README's examples, and the
# stack that a call uses.
test-c: target/cases target/readme target/stack
	valgrind --quiet --error-exitcode=1 --leak-check=full target/cases crates/vectors/data/*.txt
	target/readme
	target/stack

# The example prints what is said to be printed, and does nothing that valgrind objects to.
test-demo: target/ingredients
	valgrind --quiet --error-exitcode=1 --leak-check=full target/ingredients > target/ingredients.stdout
	diff examples/ingredients.stdout target/ingredients.stdout

# The archive against a model that was written without sight of the Rattle, against the loops of take.rs, and the examples of the Rust documentation.
test-rust: $(archive)
	cd rust && RUSTFLAGS='-D warnings' cargo test --offline

# The machine should have nothing else to do.
bench: $(archive)
	cd rust && cargo bench --offline

instructions: $(archive)
	cd rust && cargo bench --offline -- --instructions

# The archive for a core, or for all. What it is made of and held against: docs/FIRMWARE.md.
firmware: target/firmware/words
	firmware/build.sh $(CORE)

target/firmware/words: $(archive) firmware/build.sh firmware/cores.sh
	firmware/build.sh modules

test-firmware: firmware target/readme.inc
	firmware/test.sh $(CORE)

firmware-tools:
	apt-get update
	apt-get install -y --no-install-recommends qemu-user qemu-system-arm gcc-aarch64-linux-gnu libc6-dev-arm64-cross gcc-arm-linux-gnueabihf \
	    libc6-dev-armhf-cross gcc-arm-linux-gnueabi libc6-dev-armel-cross gcc-riscv64-linux-gnu libc6-dev-riscv64-cross gcc-arm-none-eabi libnewlib-arm-none-eabi

# An object of the archive has the name of the library whose entry it holds.
$(archive): crates.txt $(shell find crates -path '*/out' -prune -o \( -name '*.rt' -o -name '*.antt' \) -print)
	@mkdir -p target/objects
	@echo "rt lib (some minutes, if nothing is proved yet)"
	@for name in hoglidra hoglidra_arrays; do (cd crates/$${name}_c && rt lib) > target/lib.log 2>&1 || { cat target/lib.log; exit 1; }; done
	@for name in hoglidra hoglidra_arrays; do ar p crates/$${name}_c/out/lib$${name}_c.a > target/objects/$$name.o || exit 1; done
	@rm -f $@ && cd target/objects && ar rcsD ../libhoglidra.a hoglidra.o hoglidra_arrays.o

target/ingredients: examples/ingredients.c include/hoglidra.h $(archive)
	$(compile) $< $(archive) -o $@

target/cases target/readme target/stack: target/%: tests/c/%.c include/hoglidra.h $(archive)
	$(compile) -Itarget $< $(archive) -o $@

target/readme: target/readme.inc
target/readme.inc: README.md
	@mkdir -p target
	sed -n '/^```c$$/,/^```$$/{/^```/d;p}' README.md > $@
