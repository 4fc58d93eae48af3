# CONTRIBUTING.md says what each target is for and what it needs, ci/README.md and tests/README.md what each script shows.
# `make install` installs what `make lib` has built, and the programs that are built, below PREFIX. `make uninstall` removes them.
.PHONY: run try test examples cases bench refused stress edits lib capi installed lua python serve jdb dap-adapter dap install uninstall jvm model

CAPI = crates/ti_capi/out/libti_capi.a
TIBENCH = bench/out/tibench

run:
	cd crates/tiwalk && rt run < ../../examples/first.json

try:
	python3 ci/try_examples.py

test:
	python3 ci/tap.py ci/edits.py --apply
	python3 ci/tap.py ci/pages.py
	python3 ci/tap.py ci/proved.py
	python3 ci/tap.py ci/generate.py --check
	python3 ci/doc_examples.py
	python3 ci/gate.py $(JUNIT)

examples:
	python3 ci/cases.py --examples

cases:
	python3 ci/cases.py

$(TIBENCH): bench/tibench.py $(shell find bench/tibench crates -name '*.rt' -o -name '*.rattle')
	python3 bench/tibench.py

bench: lib $(TIBENCH)
	python3 bench/bench.py
	python3 bench/cells.py
	python3 bench/running.py
	cd crates/tiprof && rt run -- --samples 0
	python3 bench/profiling.py
	$(TIBENCH) cost
	python3 bench/orders.py
	python3 bench/spinning.py
	python3 bench/calls.py dist/lib/libcebdyraq.a
	$(CC) -O2 -std=c11 tests/c/bench.c dist/lib/libcebdyraq.a -lpthread -o dist/bench && dist/bench
	$(CC) -O2 -std=c11 tests/c/bench_classes.c dist/lib/libcebdyraq.a -lpthread -o dist/bench_classes && dist/bench_classes
	$(CC) -O2 -std=c11 tests/c/bench_serve.c dist/lib/libcebdyraq.a -lpthread -o dist/bench_serve && dist/bench_serve

refused:
	python3 ci/refused_memory.py
	python3 ci/refused_streams.py
	python3 ci/refused_tests.py

stress: $(TIBENCH)
	python3 tests/stress/stress.py
	$(TIBENCH) churn 10000 200 64

edits:
	python3 ci/edits.py --more

lib:
	python3 ci/lib.py

capi: lib
	python3 tests/c/run.py $(CAPI)
	python3 bindings/python/test.py dist/lib/libcebdyraq.a
	cd bindings/rust && CEBDYRAQ_LIB_DIR=$(CURDIR)/dist/lib cargo test --offline
	python3 tests/install/run.py

model: lib
	python3 tests/model/run.py $(CAPI)

installed: lib
	python3 tests/install/run.py

lua: lib
	$(MAKE) -C hosts/lua CEBDYRAQ=$(CURDIR)/dist
	cd hosts/lua && python3 test.py

python: lib
	$(MAKE) -C hosts/python CEBDYRAQ=$(CURDIR)/dist
	cd hosts/python && python3 test.py && python3 suites.py

serve: lib
	$(MAKE) -C hosts/lua CEBDYRAQ=$(CURDIR)/dist
	python3 tests/serve/run.py

jdb: lib
	$(MAKE) -C hosts/lua CEBDYRAQ=$(CURDIR)/dist
	python3 tests/jdb/run.py

dap-adapter:
	python3 tools/dap/build.py

dap: lib dap-adapter
	$(MAKE) -C hosts/lua CEBDYRAQ=$(CURDIR)/dist
	python3 tests/dap/run.py

# PREFIX is where the files are looked for later, and DESTDIR a folder before it into which they are put now.
PREFIX ?= /usr/local
BINDIR ?= $(PREFIX)/bin
LIBDIR ?= $(PREFIX)/lib
INCLUDEDIR ?= $(PREFIX)/include
MANDIR ?= $(PREFIX)/share/man
SHAREDIR ?= $(PREFIX)/share/cebdyraq
PROGRAMS = $(wildcard $(foreach name,tiwalk tilint tiprof,crates/$(name)/out/$(name)) hosts/lua/out/cqlua tools/dap/out/cq-dap)
INSTALLED = $(BINDIR)/tiwalk $(BINDIR)/tilint $(BINDIR)/tiprof $(BINDIR)/cqlua $(BINDIR)/cq-dap $(MANDIR)/man3/cebdyraq.3 \
	$(LIBDIR)/libcebdyraq.a $(LIBDIR)/libcebdyraq.so $(LIBDIR)/libcebdyraq.so.2 $(LIBDIR)/libcebdyraq.so.2.* \
	$(SHAREDIR)/tsan.supp $(LIBDIR)/pkgconfig/cebdyraq.pc $(INCLUDEDIR)/cebdyraq.h $(INCLUDEDIR)/cebdyraq.hpp $(INCLUDEDIR)/cebdyraq_wait.h $(INCLUDEDIR)/cebdyraq_serve.h \
	$(INCLUDEDIR)/cebdyraq_watch.h

install:
	@test -f dist/lib/libcebdyraq.a || { echo "there is nothing to install: make lib builds it" >&2; exit 1; }
	install -d $(addprefix $(DESTDIR),$(LIBDIR)/pkgconfig $(INCLUDEDIR) $(MANDIR)/man3 $(SHAREDIR))
	install -m 644 dist/include/* $(DESTDIR)$(INCLUDEDIR)
	install -m 644 dist/share/man/man3/cebdyraq.3 $(DESTDIR)$(MANDIR)/man3
	install -m 644 dist/share/cebdyraq/tsan.supp $(DESTDIR)$(SHAREDIR)
	cp -Pf --preserve=mode dist/lib/libcebdyraq.* $(DESTDIR)$(LIBDIR)
	sed -e 's|^prefix=.*|prefix=$(PREFIX)|' -e 's|^libdir=.*|libdir=$(LIBDIR)|' -e 's|^includedir=.*|includedir=$(INCLUDEDIR)|' \
		-e 's| -Wl,-rpath,[^ ]*||' dist/lib/pkgconfig/cebdyraq.pc | install -m 644 /dev/stdin $(DESTDIR)$(LIBDIR)/pkgconfig/cebdyraq.pc
	$(if $(PROGRAMS),install -d $(DESTDIR)$(BINDIR) && install -m 755 $(PROGRAMS) $(DESTDIR)$(BINDIR))

uninstall:
	rm -f $(addprefix $(DESTDIR),$(INSTALLED))

jvm: lib
	python3 tests/jvm/compare.py
	python3 tests/jvm/classes.py dist/lib/libcebdyraq.a
