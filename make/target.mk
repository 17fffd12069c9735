# The machine that make runs on, and the one that it builds for: TARGET, which is the same unless it is given.
# Where they are the same nothing emulates. Elsewhere Debian's cross compiler and Debian's emulator do. Programs are then linked
# statically, so that the emulator needs no libraries.
RT ?= rt
MACHINE := $(shell uname -m)
TARGET ?= $(MACHINE)
EMULATOR_x86_64 = qemu-x86_64
EMULATOR_aarch64 = qemu-aarch64

ifeq ($(filter help clean,$(MAKECMDGOALS))$(filter $(TARGET),x86_64 aarch64),)
$(error there is no TARGET '$(TARGET)', only x86_64 and aarch64; TARGET=x86_64 may be tried on every machine)
endif

ifeq ($(TARGET),$(MACHINE))
BUILD = build
C_COMPILER = $(CC)
NM = nm
OBJDUMP = objdump
RUN =
STATIC =
else
BUILD = build/$(TARGET)
C_COMPILER = $(TARGET)-linux-gnu-gcc
NM = $(TARGET)-linux-gnu-nm
OBJDUMP = $(TARGET)-linux-gnu-objdump
RUN = $(EMULATOR_$(TARGET))
STATIC = -static
endif

# Short lines; V=1 shows the whole commands.
quiet = $(if $(filter 1,$(V)),,@)
short = $(if $(filter 1,$(V)),,@echo '  $(1)'; )
MAKEFLAGS += --no-print-directory
