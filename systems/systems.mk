# The program and the library for systems other than Linux on x86-64.
#
#     make ARCH=aarch64 run lib     Linux on arm64: out/aarch64/psxgpu_tool, libpsxgpu.a, libpsxgpu.so.1
#     make macos                    macOS, arm64 and x86-64: out/macos/psxgpu_tool, libpsxgpu.a, libpsxgpu.1.dylib
#     make windows                  Windows on x86-64: out/windows/psxgpu_tool.exe, psxgpu.dll, libpsxgpu.dll.a, psxgpu.def
#     make wasi                     a command for runtimes of WASI: out/wasi/psxgpu_tool.wasm
#
# All are made of the modules that the kit makes for Linux (systems/keep_module.py).
.PHONY: systems macos windows wasi

ARCH = x86_64
ifneq ($(filter $(ARCH),x86_64 aarch64),$(ARCH))
$(error ARCH is x86_64 or aarch64, and not $(ARCH))
endif

MODULES = out/modules
# What compiles a module for another system, and what every program there is linked with.
RETARGET = $(addprefix systems/,targets.py retarget.py src/heap.ll)
COMMON = $(addprefix systems/src/,os.h os_words.c os_texts.c os_processor.c)
# What makes a WebAssembly module of object files.
WASM = $(addprefix systems/,wasm.py lower64.py lower64_code.py wasm_binary.py) web/memory.c

ifeq ($(ARCH),aarch64)
CROSS = aarch64-linux-gnu-
CC = $(CROSS)gcc
AR = $(CROSS)ar
OBJCOPY = $(CROSS)objcopy
OUT = out/aarch64
PLAYER = $(OUT)/psxgpu_tool
PLAY = PROGRAM=$(PLAYER) systems/players/arm64
ARCHIVE = $(MODULES)/psxgpu_c-aarch64.a

# The C files are what the kit brings built for x86-64 alone.
$(PLAYER): $(MODULES)/psxgpu_tool-aarch64.bc c/heap.c systems/src/kit.c systems/src/os_words.c systems/src/os.h
	mkdir -p $(@D)
	$(CC) $(CFLAGS) -std=c99 -Wl,--gc-sections,-z,now -s -o $@ $(<:.bc=.o) $(filter %.c,$^)
endif

# The module, and what the kit makes of it, which is newer.
$(MODULES)/psxgpu_tool-%.bc: $(BUILT)/psxgpu_tool
	@python3 -m proving.progress $(JOBS)
	python3 -m systems.keep_module psxgpu_tool $*

$(MODULES)/psxgpu_c-%.bc: $(PROVED)
	@python3 -m proving.progress --top psxgpu_c $(JOBS)
	python3 -m systems.keep_module psxgpu_c $*

$(MODULES)/psxgpu_c-%.a: $(MODULES)/psxgpu_c-%.bc ;

# A pattern here has to be that of the rule.
.PRECIOUS: $(MODULES)/psxgpu_tool-%.bc $(MODULES)/psxgpu_c-%.bc

systems: macos windows wasi

macos: out/macos/psxgpu_tool

out/macos/arm64/%.o: $(MODULES)/%-aarch64.bc $(RETARGET)
	mkdir -p $(@D)
	python3 -m systems.retarget $< macos-arm64 $@

out/macos/x86_64/%.o: $(MODULES)/%-x86_64.bc $(RETARGET)
	mkdir -p $(@D)
	python3 -m systems.retarget $< macos-x86_64 $@

out/macos/psxgpu_tool: $(foreach it,arm64 x86_64,out/macos/$(it)/psxgpu_tool.o out/macos/$(it)/psxgpu_c.o) \
    systems/macos.py $(COMMON) systems/src/os_posix.c $(shell find systems/src/include systems/src/macos -type f)
	python3 -m systems.macos

windows: out/windows/psxgpu_tool.exe

out/windows/%.o: $(MODULES)/%-x86_64.bc $(RETARGET)
	mkdir -p $(@D)
	python3 -m systems.retarget $< windows-x86_64 $@

out/windows/psxgpu_tool.exe: out/windows/psxgpu_tool.o out/windows/psxgpu_c.o systems/windows.py $(COMMON) \
    systems/src/os_windows.c
	python3 -m systems.windows

wasi: out/wasi/psxgpu_tool.wasm

out/wasi/%.o: $(MODULES)/%-x86_64.bc $(RETARGET) systems/src/chosen_bytes.ll
	mkdir -p $(@D)
	python3 -m systems.retarget $< wasm64 $@

out/wasi/psxgpu_tool.wasm: out/wasi/psxgpu_tool.o systems/wasi.py $(WASM) $(COMMON) systems/src/os_wasi.c
	python3 -m systems.wasi

dist-all: $(PLAYER) lib viewer systems
	$(MAKE) ARCH=aarch64 out/aarch64/psxgpu_tool lib
	PLAYER=$(abspath $(PLAYER)) python3 -m packages.build $@
