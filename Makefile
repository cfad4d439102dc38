# Builds, tests and installs the programs dwcheck and dwcheck-elf, the C library, and their manual
# pages. `rt`, the command of the Rattle kit, must be on the PATH.
#   make try        the main job, before anything is proved: the rows of a worked section
#   make            builds the programs, libdwcheck.a and libdwcheck.so in build/, all proved
#   make test       all tests, and the gate: every proof, wrong bodies that must be refused, and the
#                   tests of everything else. It installs the Debian packages that it needs.
#   make install    does what make does; then installs the results in $(DESTDIR)$(PREFIX)
#   make packages   installs the Debian packages that dwcheck-elf is built with
#   make dist       after make, an archive for machines without the kit, in build/dist/
# With ARCH=aarch64, make, make install, make packages and make dist are for that processor: by Debian's cross compiler,
# from the same proofs, in build/aarch64.
# make also needs cc, ar, objcopy and python3. If cargo or a package is missing, dwcheck-elf is left out,
# and a line says so. JOBS is the number of cargo's parallel jobs (all processors if not set).
ARCH ?= x86_64
PREFIX ?= /usr/local
BINDIR ?= $(PREFIX)/bin
LIBDIR ?= $(PREFIX)/lib
INCLUDEDIR ?= $(PREFIX)/include
MANDIR ?= $(PREFIX)/share/man
INSTALL ?= install

# Compilers, unless they are set: make's own CC and AR don't count. The objects that gcc adds to a shared library aren't
# marked as protected on aarch64, so libraries without constructors do without them, and atomic instructions are written
# where they are used.
default = $(if $(filter default undefined,$(origin $1)),$2,$($1))
ifeq ($(ARCH),x86_64)
out := build
CC := $(call default,CC,cc)
AR := $(call default,AR,ar)
OBJCOPY := $(call default,OBJCOPY,objcopy)
unwind_folders := c/unwind/x86_64
unwind_needs := -Wl,--no-as-needed -lgcc_s
else ifeq ($(ARCH),aarch64)
out := build/aarch64
CC := $(call default,CC,aarch64-linux-gnu-gcc)
AR := $(call default,AR,aarch64-linux-gnu-ar)
OBJCOPY := $(call default,OBJCOPY,aarch64-linux-gnu-objcopy)
protection := -mbranch-protection=standard -mno-outline-atomics
plain_link := -nostartfiles
unwind_folders := c/unwind/aarch64
unwind_needs :=
else
$(error ARCH is x86_64 or aarch64)
endif
unwind := $(addprefix $(out)/unwind/,libunwind.so.8 libunwind-$(ARCH).so.8 libunwind-ptrace.so.0)

# The version of the C interface. Its major and minor numbers are those of DWCHECK_VERSION in the
# header.
version := 2.0.0
major := 2
built := $(out)/dwcheck $(out)/libdwcheck.a $(out)/libdwcheck.so.$(version) $(out)/libdwcheck-dl.a $(out)/libdwcheck-dl.so.$(version) \
    $(unwind) $(out)/dwcheck.pc $(out)/dwcheck-dl.pc
pages := $(patsubst man/%.md,$(out)/man/%,$(wildcard man/*.md))

.PHONY: all but_elf try test packages dist install clean FORCE

all: but_elf $(out)/dwcheck-elf

but_elf: $(built) $(pages)

try:
	@tools/try.sh

test:
	@tools/test.py

# The groups of packages that dwcheck-elf is built with: any cargo will do.
groups = rust$(if $(shell command -v $(or $(CARGO),cargo)),, cargo)

packages:
ifeq ($(ARCH),x86_64)
	@tools/packages.sh install $(groups)
else
	@tools/packages.sh install $(groups) arm64 arm64_run
	@tools/packages.sh install_arm64
endif

dist: all
	@ARCH=$(ARCH) tools/dist.sh

$(out):
	mkdir -p $@

# All files that are proved for the program and the library. What is written in Rattle is built again
# only if one of them has changed, and then it replaces the old file only if it differs, so that
# nothing that uses it is built again.
proved := crates.txt $(shell find crates -name out -prune -o -name dw_tests -prune -o -name dw_times -prune \
    -o -name worked_rows -prune -o -type f \( -name '*.rt' -o -name '*.antt' \) -print)

$(out)/proved.stamp: $(proved) | $(out)
	@tools/kit.sh
	@command -v $(CC) >/dev/null || { echo "there is no $(CC); make packages$(if $(plain_link), ARCH=$(ARCH)) installs it"; exit 1; }
	@ARCH=$(ARCH) tools/build.sh
	@touch $@

$(out)/libdwcheck_c.a: $(out)/proved.stamp
	@[ -f $@ ] || ARCH=$(ARCH) tools/build.sh

# `rt` links the program for this machine. For another processor, tools/build.sh makes its object.
ifeq ($(ARCH),x86_64)
$(out)/dwcheck: $(out)/proved.stamp
	@[ -f $@ ] || tools/build.sh
else
$(out)/dwcheck-program.o: $(out)/proved.stamp
	@[ -f $@ ] || ARCH=$(ARCH) tools/build.sh

$(out)/dwcheck: $(out)/dwcheck-program.o $(out)/os.o $(out)/heap.o
	@$(CC) $^ -o $@
endif

# How C is compiled, but for libunwind's calls.
flags := -std=gnu11 -O2 -fPIC -fstack-clash-protection $(protection) -Wall -Wextra -Ic/include

# The thin part in C: calls that allow NULL for empty arrays, each of which calls the proved one of the
# same name, which libdwcheck.a has as proved_..; a step that asks for memory; texts; and what gives memory
# to the proved code.
$(out)/%.o: c/%.c c/include/dwcheck.h | $(out)
	@$(CC) $(flags) -c $< -o $@

# libdwcheck.a joins the library that rt made and that part. It is one object, in which all names but those
# of the header are local: so no name of it meets one of the program that it is linked into.
$(out)/libdwcheck.a: $(out)/libdwcheck_c.a $(out)/null.o $(out)/read.o $(out)/texts.o $(out)/heap.o c/null.c
	@rm -f $@
	@sed -n 's/^PROVED(\(dwcheck_[a-z_]*\));$$/\1 proved_\1/p' c/null.c >$(out)/null.names
	@$(OBJCOPY) --redefine-syms=$(out)/null.names $< $(out)/libdwcheck_proved.a
	@$(CC) -r -nostdlib -Wl,--whole-archive $(out)/libdwcheck_proved.a -Wl,--no-whole-archive $(out)/null.o $(out)/read.o \
	    $(out)/texts.o $(out)/heap.o -o $(out)/dwcheck.o
	@$(OBJCOPY) --wildcard --keep-global-symbol='dwcheck_*' $(out)/dwcheck.o
	@$(AR) rcs $@ $(out)/dwcheck.o

# Its symbols are bound when it is loaded, since the dynamic linker would take 3 KB of a signal handler's
# stack to bind one in a walk.
$(out)/libdwcheck.so.$(version): $(out)/libdwcheck.a c/dwcheck.map
	$(CC) -shared $(plain_link) -Wl,-z,defs -Wl,-z,now -Wl,-soname,libdwcheck.so.$(major) -Wl,--version-script=c/dwcheck.map \
	    -Wl,--whole-archive $< -Wl,--no-whole-archive -o $@

# The library that walks stacks of the running process. It is plain C, and has rows for itself.
$(out)/libdwcheck-dl.a: $(wildcard c/dl/*.[ch]) c/include/dwcheck.h c/include/dwcheck-dl.h | $(out)
	@mkdir -p $(out)/dl
	@for source in c/dl/*.c; do \
	    $(CC) $(flags) -fasynchronous-unwind-tables -c $$source -o $(out)/dl/$$(basename $$source .c).o || exit 1; \
	done
	@rm -f $@
	@$(AR) rcs $@ $(patsubst c/dl/%.c,$(out)/dl/%.o,$(wildcard c/dl/*.c))

# It finds the other library in its own folder. Where libraries lie in the system's folders, it needs no RUNPATH.
RUNPATH ?= -Wl,-rpath,'$$ORIGIN'

$(out)/libdwcheck-dl.so.$(version): $(out)/libdwcheck-dl.a $(out)/libdwcheck.so.$(version) c/dwcheck.map
	$(CC) -shared $(plain_link) -Wl,-z,defs -Wl,-z,now -Wl,-soname,libdwcheck-dl.so.$(major) -Wl,--version-script=c/dwcheck.map \
	    $(RUNPATH) -Wl,--whole-archive $< -Wl,--no-whole-archive $(out)/libdwcheck.so.$(version) -o $@

# libunwind's calls over the library, under libunwind's names: in a folder of their own, so that only programs that are
# told to find them. On x86-64, libgcc_s has the calls for exceptions, which libunwind has there too.
unwind_flags := -std=gnu11 -D_GNU_SOURCE -O2 -flto -fPIC -fstack-clash-protection -fasynchronous-unwind-tables $(protection) \
    -Wall -Wextra -Ic/include
unwind_links := -shared $(plain_link) -Wl,-z,defs -Wl,-z,now -Wl,-Bsymbolic-functions

$(out)/unwind/%.map: c/unwind/%.map
	@mkdir -p $(@D)
	@sed 's/x86_64/$(ARCH)/' $< >$@

$(out)/unwind/libunwind.so.8: $(wildcard c/unwind/*.[ch] c/unwind/remote/*) $(wildcard $(addsuffix /*,$(unwind_folders))) \
    $(out)/unwind/libunwind.map c/include/dwcheck-unwind.h $(out)/libdwcheck-dl.a $(out)/libdwcheck.a
	$(CC) $(unwind_flags) $(filter %.c %.S,$^) $(out)/libdwcheck-dl.a $(out)/libdwcheck.a $(unwind_links) -Wl,-soname,libunwind.so.8 \
	    -Wl,--version-script=$(out)/unwind/libunwind.map $(unwind_needs) -o $@

$(out)/unwind/libunwind-$(ARCH).so.8: $(wildcard c/unwind/generic/*) c/include/dwcheck-unwind.h $(out)/unwind/generic/names.map \
    $(out)/unwind/libunwind.so.8
	$(CC) $(unwind_flags) $(filter %.c %.S,$^) $(out)/unwind/libunwind.so.8 $(unwind_links) \
	    -Wl,-rpath,'$$ORIGIN' -Wl,-soname,libunwind-$(ARCH).so.8 -Wl,--version-script=$(out)/unwind/generic/names.map -o $@

$(out)/unwind/libunwind-ptrace.so.0: $(wildcard c/unwind/ptrace/*) c/unwind/symbols.c c/unwind/unwind.h c/include/dwcheck-unwind.h \
    $(out)/unwind/libunwind-$(ARCH).so.8
	$(CC) $(unwind_flags) $(wildcard c/unwind/ptrace/*.c) c/unwind/symbols.c $(out)/unwind/libunwind-$(ARCH).so.8 $(unwind_links) \
	    -Wl,-rpath-link,$(out)/unwind -Wl,-rpath,'$$ORIGIN' -Wl,-soname,libunwind-ptrace.so.0 -Wl,--version-script=c/unwind/ptrace/libunwind-ptrace.map -o $@

$(out)/%.pc: c/%.pc.in FORCE | $(out)
	@sed -e 's|@PREFIX@|$(PREFIX)|' -e 's|@LIBDIR@|$(patsubst $(PREFIX)/%,$${prefix}/%,$(LIBDIR))|' \
	    -e 's|@INCLUDEDIR@|$(patsubst $(PREFIX)/%,$${prefix}/%,$(INCLUDEDIR))|' \
	    -e 's|@VERSION@|$(version)|' $< >$@

# The manual pages, from man/ and the files that it names. This takes a moment, so it is always done.
$(out)/man/%: man/%.md FORCE | $(out)
	@mkdir -p $(out)/man
	@tools/man.py $* >$@

# If cargo or a package is missing, the old program is deleted, so that `make install` doesn't
# install it.
ifeq ($(ARCH),x86_64)
cargo := ../cargo.sh
made := $(CURDIR)/$(out)/cargo/release/dwcheck-elf
missing = tools/packages.sh missing $(groups)
else
cargo := ../cross.sh
made := $(CURDIR)/$(out)/cargo/$(ARCH)-unknown-linux-gnu/release/dwcheck-elf
missing = { tools/packages.sh missing $(groups) arm64; tools/packages.sh missing_arm64; }
endif

$(out)/dwcheck-elf: $(out)/libdwcheck.a FORCE
	@missing=$$($(missing) | tr '\n' ' '); \
	if [ -n "$$missing" ]; then \
	    rm -f $@; \
	    echo "dwcheck-elf is left out; make packages$(if $(plain_link), ARCH=$(ARCH)) installs what it needs: $$missing"; \
	else \
	    cd rust/dwcheck-command && DWCHECK_LIB_DIR=$(CURDIR)/$(out) CARGO_TARGET_DIR=$(CURDIR)/$(out)/cargo \
	        $(cargo) build --quiet --release --bin dwcheck-elf && \
	    { cmp -s $(made) $(CURDIR)/$@ || cp $(made) $(CURDIR)/$@; }; \
	fi

install: all
	$(INSTALL) -d $(DESTDIR)$(BINDIR) $(DESTDIR)$(LIBDIR)/pkgconfig $(DESTDIR)$(INCLUDEDIR) \
	    $(DESTDIR)$(MANDIR)/man1 $(DESTDIR)$(MANDIR)/man3 $(DESTDIR)$(LIBDIR)/cmake/dwcheck $(DESTDIR)$(LIBDIR)/dwcheck
	$(INSTALL) -m 755 $(out)/dwcheck $(DESTDIR)$(BINDIR)/
	if [ -f $(out)/dwcheck-elf ]; then $(INSTALL) -m 755 $(out)/dwcheck-elf $(DESTDIR)$(BINDIR)/; fi
	$(INSTALL) -m 644 $(out)/libdwcheck.a $(DESTDIR)$(LIBDIR)/
	$(INSTALL) -m 644 $(out)/libdwcheck-dl.a $(DESTDIR)$(LIBDIR)/
	for name in libdwcheck libdwcheck-dl; do \
	    $(INSTALL) -m 755 $(out)/$$name.so.$(version) $(DESTDIR)$(LIBDIR)/ && \
	    ln -sf $$name.so.$(version) $(DESTDIR)$(LIBDIR)/$$name.so.$(major) && \
	    ln -sf $$name.so.$(major) $(DESTDIR)$(LIBDIR)/$$name.so || exit 1; \
	done
	if [ -n "$(unwind)" ]; then $(INSTALL) -m 755 $(unwind) $(DESTDIR)$(LIBDIR)/dwcheck/; fi
	$(INSTALL) -m 644 $(out)/dwcheck.pc $(out)/dwcheck-dl.pc $(DESTDIR)$(LIBDIR)/pkgconfig/
	$(INSTALL) -m 644 c/dwcheckConfig.cmake $(DESTDIR)$(LIBDIR)/cmake/dwcheck/
	sed 's/@VERSION@/$(version)/' c/dwcheckConfigVersion.cmake.in >$(DESTDIR)$(LIBDIR)/cmake/dwcheck/dwcheckConfigVersion.cmake
	$(INSTALL) -m 644 c/include/dwcheck.h c/include/dwcheck.hpp c/include/dwcheck.cppm c/include/dwcheck-dl.h \
	    c/include/dwcheck-unwind.h $(DESTDIR)$(INCLUDEDIR)/
	$(INSTALL) -m 644 $(out)/man/dwcheck.1 $(DESTDIR)$(MANDIR)/man1/
	if [ -f $(out)/dwcheck-elf ]; then $(INSTALL) -m 644 $(out)/man/dwcheck-elf.1 $(DESTDIR)$(MANDIR)/man1/; fi
	$(INSTALL) -m 644 $(out)/man/dwcheck.3 $(DESTDIR)$(MANDIR)/man3/

clean:
	rm -rf build
