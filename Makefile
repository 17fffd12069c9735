# Brinepulley: `make help` says what there is. GNU make.
# It builds for the machine that it runs on, into build/; for another one with TARGET=, into build/TARGET/: make/target.mk.

VERSION := 0.10.0
PREFIX ?= /usr/local
DESTDIR ?=
CFLAGS ?= -O2 -g

.PHONY: all help lib command run install install-lib install-command uninstall check-c fuzz test beside bench clean
.PHONY: compiler emulator always
.DELETE_ON_ERROR:

all: compiler lib command

include make/target.mk

WARNINGS = -Wall -Wextra -Wpedantic -Wshadow -Wconversion -Wstrict-prototypes -Wmissing-prototypes
C_FLAGS = -std=c11 -D_POSIX_C_SOURCE=200809L $(WARNINGS) -MMD -MP -Iinclude $(CFLAGS)

ARCHIVE = $(BUILD)/lib/libbrinepulley.a
HEADER = $(BUILD)/include/brinepulley.h
PKGCONFIG = $(BUILD)/lib/pkgconfig/brinepulley.pc
COMMAND = $(BUILD)/bin/brinepulley
MANUAL = tool/brinepulley.1
CHECK = $(BUILD)/tests/check
FILM = $(BUILD)/tests/film
WATCHED = $(BUILD)/tests/watched

# What the archive comes from: must-fail edits are no part of it, nor what rt keeps.
CRATES = $(shell find crates crates.txt \( -name must-fail -o -name out \) -prune -o -type f -print)
TOOL_OBJECTS = $(patsubst %.c,$(BUILD)/%.o,$(wildcard tool/*.c))
# Programs of their own, or parts of one, beside the tests of the library.
OTHER_TESTS = tests/film.c tests/stack.c tests/watch.c $(wildcard tests/fuzz*.c)
CHECK_OBJECTS = $(patsubst %.c,$(BUILD)/%.o,$(filter-out $(OTHER_TESTS),$(wildcard tests/*.c)))

OTHER = $(firstword $(filter-out $(MACHINE),x86_64 aarch64))
help:
	@echo 'make                   prove and compile the library and the command, for this machine, under build/'
	@echo 'make run               the same, and run the demonstration'
	@echo 'make lib               the library alone: archive, header and pkg-config file'
	@echo 'make command           the command alone: build/bin/brinepulley'
	@echo 'make install           copy all of it and the manual page to PREFIX; install-lib and install-command are the halves'
	@echo 'make uninstall         remove what install put there'
	@echo 'make check-c           test the library through its C header, and the command'
	@echo 'make fuzz              damaged films, pictures, costs and logs, with sanitizers; FUZZ_SECONDS=60 for each reader'
	@echo 'make test              the gate: prove every crate, try the must-fail edits, run the programs'
	@echo 'make beside            run beside the Rust crate and compare'
	@echo 'make bench             measure the speed; BEFORE=libbrinepulley.a: beside an older archive too'
	@echo 'make clean             remove build/'
	@echo
	@printf '%-22s %s\n' 'TARGET=$(OTHER)' 'build for another machine than this one, under build/$(OTHER)/. Only then is anything installed,'
	@echo '                       a compiler and an emulator from Debian, and that is said before it is done'
	@echo 'INSTALL=no             stop where something would have to be installed'
	@echo 'PREFIX=/usr/local      where to install, below DESTDIR if that is given'
	@echo 'CC=cc CFLAGS="-O2 -g"  the C compiler of this machine, and its options'
	@echo 'V=1                    show the whole commands'

lib: $(ARCHIVE) $(HEADER) $(PKGCONFIG)

$(ARCHIVE): $(CRATES) make/archive.sh $(BUILD)/target
	$(quiet)RT='$(RT)' sh make/archive.sh $(TARGET) $@ $(BUILD)/prove.log

$(HEADER): include/brinepulley.h
	@mkdir -p $(@D)
	@cp $< $@

# Who vouches for the archive, in one sentence.
VOUCHED_x86_64 = compiled for x86-64 by the toolchain that proved it, which vouches for it
VOUCHED_aarch64 = proved for Arm and compiled for it by the same toolchain, whose gate vouches for x86-64 alone: the tests and \
    the comparison with the crate are run on this archive

# The file finds its prefix from its own place, so it is right both under build/ and where it is installed.
$(PKGCONFIG): Makefile $(BUILD)/target
	@mkdir -p $(@D)
	@printf '%s\n' 'prefix=$${pcfiledir}/../..' 'includedir=$${prefix}/include' 'libdir=$${prefix}/lib' '' \
	    'Name: brinepulley' 'Description: where a scene of a film begins: a proved detector, $(VOUCHED_$(TARGET))' \
	    'Version: $(VERSION)' 'Cflags: -I$${includedir}' 'Libs: -L$${libdir} -lbrinepulley' > $@

command: compiler $(COMMAND)

run: emulator all
	@echo
	@$(RUN) $(COMMAND) demo

# The environment of the tests. MAKER: a recipe that names make itself would be run by `make -n` too.
MAKER = $(MAKE)
TESTS_KNOW = TARGET='$(TARGET)' MACHINE='$(MACHINE)' BUILD='$(BUILD)' RUN='$(RUN)' NM='$(NM)' OBJDUMP='$(OBJDUMP)' \
    COMPILER='$(C_COMPILER)' CFLAGS='$(CFLAGS)' LDFLAGS='$(LDFLAGS)' STATIC='$(STATIC)' MAKE='$(MAKER)' \
    ARCHIVE='$(ARCHIVE)' COMMAND='$(COMMAND)' CHECK='$(CHECK)' FILM='$(FILM)' WATCHED='$(WATCHED)'

check-c: emulator lib $(COMMAND) $(CHECK) $(FILM) $(WATCHED)
	@$(TESTS_KNOW) sh tests/run.sh

fuzz: compiler lib $(COMMAND) $(FILM)
	@$(TESTS_KNOW) sh tests/fuzz.sh

test:
	.ci/run

beside:
	@$(MAKE) -C oracle beside

bench:
	@$(MAKE) -C bench bench $(if $(BEFORE),BEFORE='$(abspath $(BEFORE))')

clean:
	rm -rf build

include make/install.mk

compiler:
	@sh make/compiler.sh $(TARGET) $(MACHINE) '$(C_COMPILER)'

# After the compiler, so that two do not install at once.
emulator: compiler
	@$(if $(RUN),sh make/compiler.sh $(TARGET) $(MACHINE) '$(C_COMPILER)' $(RUN))

# The target, the compiler and its options: what was made with others is made anew.
$(BUILD)/target: MADE_WITH = $(TARGET)
$(BUILD)/options: MADE_WITH = $(TARGET) $(C_COMPILER) $(C_FLAGS) $(LDFLAGS) $(STATIC)
$(BUILD)/target $(BUILD)/options: always
	@mkdir -p $(@D)
	@echo '$(MADE_WITH)' > $@.new
	@if cmp -s $@.new $@; then rm $@.new; else mv $@.new $@; fi

link = $(call short,link $@)$(C_COMPILER) $(CFLAGS) $(LDFLAGS) $(STATIC) -o $@

$(COMMAND): $(TOOL_OBJECTS) $(ARCHIVE)
	@mkdir -p $(@D)
	$(link) $(TOOL_OBJECTS) $(ARCHIVE)

$(CHECK): $(CHECK_OBJECTS) $(ARCHIVE)
	$(link) $(CHECK_OBJECTS) $(ARCHIVE)

$(FILM): $(BUILD)/tests/film.o
	$(link) $<

# The command, with calls that tests/watch.c takes, writes down and lets fail.
$(WATCHED): $(TOOL_OBJECTS) $(BUILD)/tests/watch.o $(ARCHIVE)
	$(link) -Wl,--wrap=pwrite,--wrap=fdatasync,--wrap=fsync,--wrap=read,--wrap=fopen $(TOOL_OBJECTS) $(BUILD)/tests/watch.o $(ARCHIVE)

$(BUILD)/tool/main.o: private C_FLAGS += -DBRINEPULLEY_VERSION='"$(VERSION)"'
$(BUILD)/tool/main.o: Makefile

$(BUILD)/%.o: %.c $(BUILD)/options | compiler
	@mkdir -p $(@D)
	$(call short,cc $<)$(C_COMPILER) $(C_FLAGS) -c -o $@ $<

-include $(wildcard $(BUILD)/tool/*.d $(BUILD)/tests/*.d)
