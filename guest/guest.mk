# Builds a program for the profiler from C, C++ and assembly files, with Debian's gcc-riscv64-unknown-elf and
# picolibc-riscv64-unknown-elf. Include it after setting PROGRAM; the first target is what it makes:
#
#   PROGRAM      the source files (.c, .cc, .cpp, .cxx, .C, .s, .S)
#   ELF          in place of PROGRAM: a program that is built already; input and schedule are made for it
#   NAME         what the program is called: NAME.elf, NAME.input, NAME.schedule (default: the first file, no suffix)
#   BUILD        the folder of the objects (default: NAME.build)
#   INPUT        the file that the program reads (default: NAME.input, which is made empty where it is missing)
#   HARTS        the number of harts of the schedule (default: 1)
#   PERIOD       the sampling period of the line that is printed (default: 997)
#   CC           clang, or clang-16 and so on, which lld links; everything else is Debian's gcc
#   CFLAGS       options of the compiler (default: -O2)
#   LDFLAGS      options of the linker
#   LDLIBS       libraries (for example -lm)
#   GUEST_PARTS  the files of guest/ around main and in place of the libraries' code (default: all)
#   ATOMICS      options of gcc by which atomic operations are calls of atomic.c
#
# What options change is made again where they change. NAME.schedule is made again for another number of harts, unless
# someone wrote it; NAME.input is never changed.

# A word of make has no spaces: in the names of files they are +SPACE+ until a name is written, in a rule or a command.
empty :=
space := $(empty) $(empty)
comma := ,
joined = $(subst $(space),+SPACE+,$(1))
rule = $(subst +SPACE+,\ ,$(1))
quoted = $(foreach name,$(1),'$(subst +SPACE+, ,$(name))')
shown = $(foreach name,$(1),$(if $(findstring +SPACE+,$(name)),$(call quoted,$(name)),$(name)))
# A name that the user gave refers to RELATIVE_TO where that is set, and else to the folder of the Makefile.
placed = $(if $(RELATIVE_TO),$(if $(filter /%,$(1)),$(1),$(call joined,$(RELATIVE_TO))/$(1)),$(1))
given = $(if $(1),$(call placed,$(call joined,$(1))))

GUEST := $(call joined,$(realpath $(dir $(lastword $(MAKEFILE_LIST)))))
SOURCES := $(shell $(if $(RELATIVE_TO),cd '$(RELATIVE_TO)' &&) sh $(call quoted,$(GUEST)/files.sh) $(PROGRAM))
SOURCES := $(foreach source,$(SOURCES),$(call placed,$(source)))
NAME ?= $(basename $(firstword $(call given,$(ELF)) $(SOURCES)))
override NAME := $(call given,$(NAME))
BUILD ?= $(NAME).build
override BUILD := $(call given,$(BUILD))
INPUT ?= $(NAME).input
override INPUT := $(call given,$(INPUT))
ELF ?= $(NAME).elf
override ELF := $(call given,$(ELF))
HARTS ?= 1
PERIOD ?= 997
CFLAGS ?= -O2

C_CPP := $(filter %.cc %.cpp %.cxx %.C,$(SOURCES))
ifneq ($(filter-out %.c %.s %.S,$(filter-out $(C_CPP),$(SOURCES))),)
$(error neither C, C++ nor assembly: $(subst +SPACE+, ,$(filter-out %.c %.s %.S,$(filter-out $(C_CPP),$(SOURCES)))))
endif

CROSS = riscv64-unknown-elf-
ARCH = -march=rv32im -mabi=ilp32
MACHINE = --specs=picolibc.specs $(ARCH)
# -g writes .debug_frame, by which call paths are found, and .debug_info and .debug_line, which give procedures, inlined
# procedures and lines. gcc would make test-and-set without atomicity.
GUEST_CFLAGS = $(MACHINE) -g
GUEST_CXXFLAGS = -fno-exceptions -fno-rtti -fno-threadsafe-statics
ATOMICS ?= -fno-inline-atomics '-D__atomic_test_and_set(p,o)=(__atomic_exchange_n((volatile char*)(p),1,o)!=0)'
PICOLIBC = /usr/lib/picolibc/riscv64-unknown-elf

ifeq ($(filter clang%,$(notdir $(firstword $(CC)))),)
COMPILE_C = $(CROSS)gcc $(GUEST_CFLAGS) $(ATOMICS)
COMPILE_CXX = $(CROSS)g++ $(GUEST_CFLAGS) $(ATOMICS) $(GUEST_CXXFLAGS)
LINK = $(CROSS)gcc $(MACHINE) -nostartfiles
LIBRARIES = -lc -lgcc
else
CLANG = --target=riscv32-unknown-elf $(ARCH) -mno-relax -g -Wno-atomic-alignment
COMPILE_C = $(CC) $(CLANG) -ftls-model=local-exec -isystem $(PICOLIBC)/include
COMPILE_CXX = $(subst clang,clang++,$(CC)) $(wordlist 2,99,$(COMPILE_C)) $(GUEST_CXXFLAGS)
# One segment that is executed and one that is written, as GNU ld makes them.
LINK = $(CC) $(CLANG) -fuse-ld=$(patsubst clang%,lld%,$(notdir $(firstword $(CC)))) -nostdlib \
  -Wl,--gc-sections,-z,norelro,--no-rosegment
LIBRARIES = -L$(PICOLIBC)/lib/$(shell $(CROSS)gcc $(ARCH) -print-multi-directory) -lc \
  $(shell $(CROSS)gcc $(ARCH) -print-libgcc-file-name)
endif

# What a program doesn't use isn't linked: of these files each procedure by itself, and of those of libguest.a each
# file. The first are there in place of procedures of the libraries, which would be found before those of libguest.a.
GUEST_PARTS ?= program.c lock.c string.c divide.c save_restore.S setjmp.S
GUEST_SOURCES = start.S system.c $(GUEST_PARTS) $(if $(C_CPP),cplusplus.cc)
LIBGUEST_SOURCES = stdio.c files.c process.c absent.S atomic.c
# The guest's own files are compiled by gcc, each procedure in a section of its own, with these of the options. Loops
# stay loops, and aren't made calls of memset and memcpy, which are made of them.
OWN_FLAGS = $(GUEST_CFLAGS) -ffunction-sections -fdata-sections -fno-tree-loop-distribute-patterns \
  $(filter -O% -ffile-prefix-map=% -fdebug-prefix-map=% -Wa$(comma)% %unwind-tables -DHEAP_BYTES=%,$(CFLAGS))

OPTIONS := $(call rule,$(BUILD)/options)
OWN_OPTIONS := $(call rule,$(BUILD)/guest/options)
own_objects = $(patsubst %,$(BUILD)/guest/%.o,$(1))
object = $(BUILD)/$(subst /,+,$(1)).o
LINKED = $(call own_objects,$(GUEST_SOURCES)) $(foreach source,$(SOURCES),$(call object,$(source)))
LIBGUEST = $(call own_objects,$(LIBGUEST_SOURCES))

$(call rule,$(NAME).ready): $(call rule,$(ELF) $(INPUT) $(NAME).schedule)
	@echo "$(call shown,$(patsubst %/,%,$(dir $(GUEST)))/hpc) profile" \
	  "$(call shown,$(ELF) $(INPUT) $(NAME).schedule) $(PERIOD) 1 $(call shown,$(NAME).db)"

$(call rule,$(NAME).input):
	: > '$@'

$(call rule,$(NAME).schedule): FORCE
	@sh $(call quoted,$(GUEST)/schedule.sh) $(HARTS) '$@'

ifneq ($(SOURCES),)
$(call rule,$(NAME).elf): $(call rule,$(LINKED) $(BUILD)/libguest.a $(GUEST)/guest.ld) $(OPTIONS)
	$(LINK) $(CFLAGS) -static -T $(call quoted,$(GUEST)/guest.ld) $(LDFLAGS) -o '$@' $(call quoted,$(LINKED)) \
	  -Wl,--start-group $(call quoted,$(BUILD)/libguest.a) $(LDLIBS) $(LIBRARIES) -Wl,--end-group

$(call rule,$(BUILD)/libguest.a): $(call rule,$(LIBGUEST))
	rm -f '$@'
	$(CROSS)ar rcs '$@' $(call quoted,$(LIBGUEST))

# These change where the options and sources of the program do, and the options of the guest's own files.
$(OPTIONS): export SAID = $(COMPILE_C) $(COMPILE_CXX) $(LINK) $(LIBRARIES) $(CFLAGS) $(LDFLAGS) $(LDLIBS) $(LINKED)
$(OWN_OPTIONS): export SAID = $(OWN_FLAGS)
$(OPTIONS) $(OWN_OPTIONS): FORCE | $(call rule,$(BUILD)/guest)
	@printf '%s\n' "$$SAID" | cmp -s - '$@' || printf '%s\n' "$$SAID" > '$@'

$(call rule,$(BUILD)/guest):
	mkdir -p '$@'

# compile SOURCE, OBJECT, OPTIONS' FILE, COMMAND
define compile
$(call rule,$(2)): $(call rule,$(1)) $(3) $(call rule,$(GUEST)/guest.mk)
	$(4) -MMD -MP -c -o $(call quoted,$(2)) $(call quoted,$(1))
endef
$(foreach source,$(C_CPP), \
  $(eval $(call compile,$(source),$(call object,$(source)),$(OPTIONS),$$(COMPILE_CXX) $$(CFLAGS))))
$(foreach source,$(filter-out $(C_CPP),$(SOURCES)), \
  $(eval $(call compile,$(source),$(call object,$(source)),$(OPTIONS),$$(COMPILE_C) $$(CFLAGS))))
$(foreach source,$(filter-out %.cc,$(GUEST_SOURCES) $(LIBGUEST_SOURCES)), \
  $(eval $(call compile,$(GUEST)/$(source),$(call own_objects,$(source)),$(OWN_OPTIONS),$$(CROSS)gcc $$(OWN_FLAGS))))
$(eval $(call compile,$(GUEST)/cplusplus.cc,$(call own_objects,cplusplus.cc),$(OWN_OPTIONS), \
  $$(CROSS)g++ $$(OWN_FLAGS) $$(GUEST_CXXFLAGS)))
-include $(call rule,$(BUILD))/*.d $(call rule,$(BUILD))/guest/*.d
endif

.PHONY: $(call rule,$(NAME).ready) FORCE clean
clean:
	rm -rf $(call quoted,$(BUILD) $(if $(SOURCES),$(NAME).elf))
