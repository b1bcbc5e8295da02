# make              proves the program, and builds ./b3sum for this processor; with CPU=x86-64-v2 for all that have SSE 4.2,
#                   and with CPU=x86-64 for all of that kind
# make install      installs it, its manual page and its completions for bash, zsh and fish below PREFIX, which is
#                   /usr/local; make uninstall removes them
# make lib          proves the hasher, and builds it as a C library, libb3.a and libb3.so, for this processor or CPU
# make install-lib  installs the library, its header and b3.pc below PREFIX
# make check        proves what changed since its last run, over the proofs that it keeps, runs the tests of that, builds
#                   ./b3sum, and runs the quick rows of faults on it: for who changes something, as make proves whole
#                   crates anew
# make test         is the gate: all proofs, the must-fail edits, all tests and the stored run; and on the program that it
#                   built a shorter soak, compare with a plain b3sum in Python, and the quick rows of faults
#
# Beside the gate, over what is built:
# make compare      runs the program beside the installed b3sum, on the same inputs, trees and lists
# make dist         makes a release in dist/, for users without the toolchain: an archive and Debian packages
# make dist-test    tests that release as they get it, and that wrong ones are found out; with DEBIAN=FOLDER, in that
#                   root of Debian too
# make faults       runs it with full devices, closed streams, broken lists, odd names and files that change; compares
#                   the options of its help with completions/
# make refused      refuses each growth of memory in turn
# make soak         runs it for two minutes on random trees and lists, with input, outputs, memory and descriptors that fail
# make lib-test     calls the library from C, C++ and Python programs; it needs a C compiler
# make bench        times the program beside the installed b3sum, the code on lanes beside plain word code, runs of
#                   workers, and the library beside the original C code, where that is installed; writes the tables of
#                   README.md and docs/BENCH.md, and docs/bench.svg; ends with 1 if a row is slower than is wanted,
#                   or where a started thread keeps the vectors of the code on lanes across lines of the cache
# make imports      compares the names that the program imports from the C library with a list
# make audit        compares docs/AUDIT.md with the files that it names, and with what the laws and contracts cite; and
#                   completions/ with the table of options
# make statements   prints the laws and all that they cite, as one text in reading order
# make cheat EDIT=crates/NAME/must-fail/WRONG.edit
#                   tries one wrong body, which the prover must refuse

PREFIX = /usr/local
DESTDIR =
SHARE = $(DESTDIR)$(PREFIX)/share
ZSH = $(SHARE)/zsh/site-functions
INSTALL = install

# The version is written down where the program prints it.
VERSION := $(shell sed -n 's/.*\.version("\(.*\)").*/\1/p' crates/b3_arguments/src/command.rt)

# The level of x86-64 to build for: the program may use its instructions and those of all levels below.
has = $(shell grep -m 1 -o -w $(1) /proc/cpuinfo 2>/dev/null)
CPU := $(if $(call has,avx2),x86-64-v3,$(if $(call has,sse4_2),x86-64-v2,x86-64))
FLAGS = --cpu=$(CPU)

# The gate runs as many tasks at once as there are processors, as long as each has 5 GiB of free memory.
TASKS := $(shell awk -v processors=$$(nproc) '/^MemAvailable/ { tasks = int($$2 / 5 / 1024 / 1024); \
    if (tasks > processors) tasks = processors; print (tasks > 1 ? tasks : 1) }' /proc/meminfo)

# Those of the program, with their folders, since a folder is newer than it once a file in it was added or removed.
CRATES := $(filter-out crates/%_tests/ $(addprefix crates/,b3_laws/ b3_bench/ b3_c/),$(wildcard crates/*/))
SOURCES := crates.txt $(shell find $(CRATES) -mindepth 1 \( -name out -o -name must-fail \) -prune -o -print)

LIBRARY_SOURCES := crates.txt $(shell find $(addprefix crates/,b3_core b3_hash b3_c) -mindepth 1 \
    \( -name out -o -name must-fail \) -prune -o -print)

.PHONY: all install install-texts uninstall lib install-lib lib-test dist dist-test check test compare faults refused \
    soak bench imports audit statements cheat clean force

all: b3sum
	@echo './b3sum is proved and built. To install it below $(PREFIX): make install'
	@echo 'After a change: make check proves what changed, runs its tests and builds ./b3sum. See CONTRIBUTING.md.'

# Such a file changes, and so what it is of is built again, when another level is asked for.
b3sum.cpu libb3.cpu: force
	@echo $(CPU) | cmp -s - $@ || echo $(CPU) > $@

b3sum: $(SOURCES) b3sum.cpu
	tools/prove b3sum $(FLAGS)

# Where no level is asked for, what is built is installed and tested, of whatever level it is.
install compare faults refused soak imports: CPU := $(shell cat b3sum.cpu 2>/dev/null || echo $(CPU))
install: b3sum install-texts
	$(INSTALL) -d $(DESTDIR)$(PREFIX)/bin
	$(INSTALL) -m 755 b3sum $(DESTDIR)$(PREFIX)/bin/b3sum

# What there is beside the program: the manual page and the completions.
install-texts:
	$(INSTALL) -d $(SHARE)/man/man1 $(SHARE)/bash-completion/completions $(ZSH) $(SHARE)/fish/vendor_completions.d
	sed 's|@VERSION@|$(VERSION)|' b3sum.1 | $(INSTALL) -m 644 /dev/stdin $(SHARE)/man/man1/b3sum.1
	$(INSTALL) -m 644 completions/b3sum.bash $(SHARE)/bash-completion/completions/b3sum
	$(INSTALL) -m 644 completions/_b3sum $(ZSH)/_b3sum
	$(INSTALL) -m 644 completions/b3sum.fish $(SHARE)/fish/vendor_completions.d/b3sum.fish

# Removes the library too. Its header has a folder of its own, since another implementation's has the same name.
uninstall:
	rm -f $(DESTDIR)$(PREFIX)/bin/b3sum $(SHARE)/man/man1/b3sum.1
	rm -f $(SHARE)/bash-completion/completions/b3sum $(ZSH)/_b3sum
	rm -f $(SHARE)/fish/vendor_completions.d/b3sum.fish
	rm -f $(addprefix $(DESTDIR)$(PREFIX)/lib/,libb3.a libb3.so libb3.so.0 pkgconfig/b3.pc)
	rm -f $(DESTDIR)$(PREFIX)/include/b3/blake3.h
	[ ! -d $(DESTDIR)$(PREFIX)/include/b3 ] || rmdir --ignore-fail-on-non-empty $(DESTDIR)$(PREFIX)/include/b3

lib: libb3.a libb3.so

libb3.a: $(LIBRARY_SOURCES) libb3.cpu
	tools/prove libb3.a $(FLAGS)

# The loader refuses it on a processor below that level.
libb3.so.0: libb3.a
	$(CC) -shared -o $@ -Wl,--whole-archive libb3.a -Wl,--no-whole-archive -Wl,-soname,$@ \
	    -Wl,-z,text -Wl,-z,defs -Wl,-z,now $(addprefix -z ,$(filter-out x86-64,$(CPU)))

libb3.so: libb3.so.0
	ln -sf $< $@

install-lib lib-test: CPU := $(shell cat libb3.cpu 2>/dev/null || echo $(CPU))
install-lib: lib
	$(INSTALL) -d $(DESTDIR)$(PREFIX)/lib/pkgconfig $(DESTDIR)$(PREFIX)/include/b3
	$(INSTALL) -m 644 libb3.a $(DESTDIR)$(PREFIX)/lib/libb3.a
	$(INSTALL) -m 755 libb3.so.0 $(DESTDIR)$(PREFIX)/lib/libb3.so.0
	ln -sf libb3.so.0 $(DESTDIR)$(PREFIX)/lib/libb3.so
	$(INSTALL) -m 644 include/blake3.h $(DESTDIR)$(PREFIX)/include/b3/blake3.h
	sed -e 's|@PREFIX@|$(PREFIX)|' -e 's|@LIBDIR@|$${prefix}/lib|' -e 's|@CPU@|$(CPU)|' -e 's|@VERSION@|$(VERSION)|' \
	    b3.pc.in | $(INSTALL) -m 644 /dev/stdin $(DESTDIR)$(PREFIX)/lib/pkgconfig/b3.pc

lib-test: lib
	tools/library-test

dist:
	tools/dist

dist-test:
	tools/dist-test $(DEBIAN)
	tools/dist-test --wrong

force:

check: b3sum.cpu
	tools/check $(FLAGS)

test:
	RT_JOBS=$${RT_JOBS:-$(TASKS)} tools/gate

compare: b3sum
	tools/compare

faults: b3sum
	tools/faults

refused: b3sum
	tools/refused-memory
	tools/refused-tests

soak: b3sum
	tools/soak

# With the library if there is a C compiler, which its rows need.
bench: b3sum $(if $(shell command -v $(CC) 2>/dev/null),lib)
	tools/stack-places
	tools/workers $(FLAGS)
	tools/bench --write $(FLAGS)

imports: b3sum
	tools/imports

audit:
	tools/audit
	tools/completions

statements:
	@tools/statements

cheat:
	tools/cheat $(word 2,$(subst /, ,$(EDIT))) $(EDIT)

clean:
	rm -rf b3sum b3sum.cpu libb3.* dist out crates/*/out
