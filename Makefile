# make run builds the program and plays an example; make test passes all tests; make bench measures the program.
# make try CAPTURE=FILE COMMAND=shot > OUT plays a capture within two minutes, by a build that is not proved.
# make lib builds the library for C and Python into out/, make web the module and the pages for browsers into web/out/ and
# the viewer, web/viewer.html.
# make plugin builds the recorder and a GPU plugin for emulators over that library, in recorder/out/.
# make install puts program, tools, manual pages, documents and, where it is built, the library below PREFIX (/usr/local);
# make uninstall removes them. Both may have a DESTDIR before it; PYTHON is the Python that finds the package psxgpu.
# make dist makes the packages, make deb those for Debian. make CPU=x86-64-v3 builds the program for newer processors
# alone, and make lib-v3 the shared library for them. If that is installed, the loader of glibc takes it by itself.
# make ARCH=aarch64 GOAL does the same for Linux on arm64, where GOAL is run, lib, install, uninstall, dist or deb.
# make macos, make windows and make wasi build for these systems (systems/systems.mk); make dist-all makes all packages.
.PHONY: run try test bench lib lib-v3 plugin web viewer install install-library uninstall dist deb dist-all

VERSION := $(shell cat VERSION 2> /dev/null)
EXAMPLE = examples/two-fills.capture
CAPTURE = $(EXAMPLE)
COMMAND = shot
BUILT = crates/psxgpu_tool/out
PLAYER = $(if $(CPU),$(BUILT)/$(CPU)/psxgpu_tool,$(BUILT)/psxgpu_tool)
PLAY = $(PLAYER)
PROVED = crates/psxgpu_c/out/libpsxgpu_c.a
ARCHIVE = $(PROVED)
OUT = out
FIRST = $(OUT)/first-picture.ppm
NEWER = $(OUT)/glibc-hwcaps/x86-64-v3
SONAME = libpsxgpu.so.$(firstword $(subst ., ,$(VERSION)))
SOURCES := $(shell find crates -name out -prune -o \( -name '*.rt' -o -name '*.antt' \) -print)

PREFIX = /usr/local
# The Python that finds the package psxgpu after make install.
PYTHON := $(firstword $(wildcard /usr/bin/python3) python3)
BIN = $(DESTDIR)$(PREFIX)/bin
INCLUDE = $(DESTDIR)$(PREFIX)/include
# The folder of the library below PREFIX. Debian has one for each processor.
LIBDIR = lib
LIB = $(DESTDIR)$(PREFIX)/$(LIBDIR)
MAN = $(DESTDIR)$(PREFIX)/share/man/man1
CFLAGS = -O2
OBJCOPY = objcopy

include systems/systems.mk
.DEFAULT_GOAL = run

# Where there is no program yet, a picture comes first, by a build that is not proved. The proved program has to write
# the same bytes.
run:
	@[ -e $(BUILT)/psxgpu_tool ] || [ -e $(FIRST) ] || ! python3 -m proving.unproved --first-picture $(EXAMPLE) $(FIRST) || \
	  python3 -m psxgpu picture $(FIRST) two-fills.png
	@$(MAKE) -s $(PLAYER)
	@$(PLAY) shot < $(EXAMPLE) > two-fills.ppm
	@python3 -m psxgpu picture two-fills.ppm two-fills.png
	@echo "two-fills.ppm, two-fills.png: a blue screen of 320 by 240 with a red square in it"
	@[ ! -e $(FIRST) ] || { cmp $(FIRST) two-fills.ppm && rm $(FIRST) && \
	  echo "The proved program writes the bytes of the first picture."; }

try:
	@python3 -m proving.unproved $(COMMAND) < "$(CAPTURE)"

$(BUILT)/psxgpu_tool: $(SOURCES)
	@python3 -m proving.progress $(JOBS)
	cd crates/psxgpu_tool && \
	  rt run --jobs $$(cd ../.. && python3 -m proving.plan psxgpu_tool $(JOBS)) -- play < stdin > /dev/null

# The program for one processor. The proofs are those of the usual build, and its program stays.
$(BUILT)/%/psxgpu_tool: $(BUILT)/psxgpu_tool
	@mkdir -p $(@D)
	cd crates/psxgpu_tool && cp -p out/psxgpu_tool out/$*/usual && \
	  trap 'mv -f out/$*/usual out/psxgpu_tool' EXIT && trap 'exit 1' INT TERM && \
	  rt run --cpu=$* -- play < stdin > /dev/null && mv out/psxgpu_tool out/$*/psxgpu_tool
	@touch $@

test:
	rt ci

bench: $(PLAYER)
	python3 -m bench.run

lib: $(OUT)/libpsxgpu.a $(OUT)/$(SONAME)

lib-v3: $(NEWER)/$(SONAME)

$(PROVED): $(SOURCES)
	@python3 -m proving.progress --top psxgpu_c $(JOBS)
	cd crates/psxgpu_c && rt lib --jobs $$(cd ../.. && python3 -m proving.plan psxgpu_c $(JOBS))

$(OUT)/%.o: c/%.c c/psxgpu.h
	mkdir -p $(OUT)
	$(CC) $(CPPFLAGS) $(CFLAGS) -std=c99 -fPIC -c $< -o $@

$(OUT)/libpsxgpu.a: $(ARCHIVE) $(OUT)/heap.o $(OUT)/text.o $(OUT)/play_to.o
	cp $(ARCHIVE) $@
	$(AR) rD $@ $(OUT)/heap.o $(OUT)/text.o $(OUT)/play_to.o
	$(OBJCOPY) -D $(foreach it,alloc realloc dealloc,--redefine-sym rattle_$(it)=rattle_of_psxgpu_$(it)) $@

define link_shared
	$(CC) $(CFLAGS) $(LDFLAGS) -shared -Wl,-soname,$(SONAME) -Wl,--version-script=c/psxgpu.map -Wl,-z,defs,-z,now \
	  -Wl,--whole-archive $(1) -Wl,--no-whole-archive -o $@
endef

# The second name is a hard link, since `rt ci` stops at a symbolic one.
$(OUT)/$(SONAME): $(OUT)/libpsxgpu.a c/psxgpu.map
	$(call link_shared,$(OUT)/libpsxgpu.a)
	ln -f $@ $(OUT)/libpsxgpu.so

# The archive for newer processors. The proofs are those of the usual build, and its archive stays.
$(NEWER)/libpsxgpu.a: $(OUT)/libpsxgpu.a
	mkdir -p $(@D)
	cd crates/psxgpu_c && cp -p out/libpsxgpu_c.a out/usual.a && \
	  trap 'mv -f out/usual.a out/libpsxgpu_c.a' EXIT && trap 'exit 1' INT TERM && \
	  rt lib --cpu=x86-64-v3 && cp out/libpsxgpu_c.a $(abspath $@.part)
	$(AR) rD $@.part $(OUT)/heap.o $(OUT)/text.o $(OUT)/play_to.o
	mv $@.part $@

$(NEWER)/$(SONAME): $(NEWER)/libpsxgpu.a c/psxgpu.map
	$(call link_shared,$<)

plugin: out/libpsxgpu.a
	recorder/build

web: web/out/index.html web/out/conformance.html viewer

web/out/psxgpu.wasm: out/wasi/psxgpu_c.o web/build.py $(WASM) c/play_to.c c/text.c c/psxgpu.h
	python3 -m web.build module

web/out/index.html: web/out/psxgpu.wasm $(wildcard web/*.js) $(wildcard web/film_page/*) \
  $(wildcard web/viewer/*/*.js)
	python3 -m web.build page

web/out/conformance.html: web/out/index.html $(wildcard web/suite_page/*) $(wildcard psxgpu/conformance/*.py) \
  $(wildcard psxgpu/conformance/chapters/*.py)
	python3 -m web.suite_page.pack

viewer: web/viewer.html

web/viewer.html: web/out/index.html $(wildcard web/viewer/* web/viewer/*/*.js)
	python3 -m web.viewer.pack

install: $(PLAYER) $(if $(wildcard $(OUT)/libpsxgpu.a),install-library)
	install -d $(BIN) $(MAN)
	install -m 755 $(PLAYER) $(BIN)/psxgpu_tool
	install -m 644 man/psxgpu_tool.1 $(MAN)/psxgpu_tool.1
	packages/install "$(DESTDIR)" "$(PREFIX)" "$(PYTHON)"

install-library:
	install -d $(INCLUDE) $(LIB)
	install -m 644 c/psxgpu.h recorder/psxgpu_capture.h $(INCLUDE)
	install -m 644 $(OUT)/libpsxgpu.a $(LIB)/libpsxgpu.a
	install -m 755 $(OUT)/$(SONAME) $(LIB)/$(SONAME)
	ln -sf $(SONAME) $(LIB)/libpsxgpu.so
	[ ! -f $(NEWER)/$(SONAME) ] || install -D -m 755 $(NEWER)/$(SONAME) $(LIB)/$(NEWER:$(OUT)/%=%)/$(SONAME)
	python3 -m packages.for_compilers "$(DESTDIR)$(PREFIX)" "$(LIBDIR)"

uninstall:
	rm -f $(BIN)/psxgpu_tool $(INCLUDE)/psxgpu.h $(INCLUDE)/psxgpu_capture.h $(LIB)/libpsxgpu.a $(LIB)/$(SONAME) $(LIB)/libpsxgpu.so \
	  $(LIB)/$(NEWER:$(OUT)/%=%)/$(SONAME) $(LIB)/pkgconfig/psxgpu.pc $(MAN)/psxgpu_tool.1
	rm -rf $(LIB)/cmake/psxgpu
	[ ! -d $(LIB)/$(NEWER:$(OUT)/%=%) ] || \
	  (cd $(LIB) && rmdir -p --ignore-fail-on-non-empty $(NEWER:$(OUT)/%=%))
	packages/install --remove "$(DESTDIR)" "$(PREFIX)" "$(PYTHON)"

dist deb: $(PLAYER) lib $(if $(filter x86_64,$(ARCH)),lib-v3)
	PLAYER=$(abspath $(PLAYER)) python3 -m packages.build $@
