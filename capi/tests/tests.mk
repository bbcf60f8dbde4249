# Tests. Each prints a line; tests/run counts them.

T = $(OUT)/tests
comma = ,
wrap = $(patsubst %,-Wl$(comma)--wrap=%,$(1))
BETWEEN = $(call wrap,pthread_cond_wait pthread_cond_timedwait pthread_cond_signal pthread_cond_broadcast pthread_create pthread_join sched_yield sem_wait sem_post)
HEAP = $(call wrap,malloc calloc realloc posix_memalign free)
STRICT = $(C) -Werror
# A core in C, which refuses what a test wants to be refused.
MOCK = $(T)/mock_core.o $(T)/mock_merging.o
SHARED_HEADERS = clsm.h tests/check.h tests/between.h tests/mock_core.h tests/record.h

$(T): $(OUT)/settings
	mkdir -p $@

# ---- Programs: over the library; `mocked`, `mocked_many`, `checked` and `schedules` over the parts and the mock core.

$(T)/threads $(T)/refusals $(T)/changes $(T)/batch $(T)/many $(T)/transactions $(T)/ranges $(T)/copying $(T)/edges $(T)/full $(T)/loops $(T)/lives $(T)/audited: $(T)/%: tests/%.c $(SHARED_HEADERS) $(T)/between.o $(OUT)/libclsm.a
	$(STRICT) -o $@ $< $(T)/between.o $(OUT)/libclsm.a $(BETWEEN)

$(T)/memory: $(T)/%: tests/%.c $(SHARED_HEADERS) $(OUT)/libclsm.a | $(T)
	$(STRICT) -o $@ $< $(OUT)/libclsm.a $(HEAP)

$(T)/tree: tests/tree.c tests/check.h src/tree.h $(OUT)/tree.o $(OUT)/codes.o | $(T)
	$(STRICT) -o $@ $< $(OUT)/tree.o $(OUT)/codes.o

$(T)/codecs: tests/codecs.c tests/check.h clsm.h clsm_codec.h $(OUT)/libclsm.a | $(T)
	$(STRICT) -o $@ $< $(OUT)/libclsm.a

$(T)/stack $(T)/closed: $(T)/%: tests/%.c $(SHARED_HEADERS) $(OUT)/libclsm.a | $(T)
	$(STRICT) -o $@ $< $(OUT)/libclsm.a

$(T)/shared: tests/lives.c $(SHARED_HEADERS) $(T)/between.o $(OUT)/$(SHARED)
	$(STRICT) -o $@ $< $(T)/between.o $(BETWEEN) -L$(OUT) -lclsm -Wl,-rpath,'$$ORIGIN/..'

$(T)/core: tests/core.c tests/check.h core/clsm_core.h $(OUT)/codes.o $(CORE) | $(T)
	$(STRICT) -o $@ $< $(OUT)/codes.o $(CORE)

$(T)/example-cxx-%: examples/%.cpp clsm.h $(CXX_HEADERS) $(OUT)/libclsm.a | $(T)
	$(CXX17) -Werror -I. -o $@ $< $(OUT)/libclsm.a

$(T)/example-%: examples/%.c clsm.h clsm_codec.h $(OUT)/libclsm.a | $(T)
	$(STRICT) -I. -o $@ $< $(OUT)/libclsm.a

$(T)/cxx: tests/cxx.cpp clsm.h $(OUT)/libclsm.a | $(T)
	$(CXX11) -Werror -o $@ $< $(OUT)/libclsm.a

$(T)/cxx17: tests/cxx17.cpp $(INSTALLED) $(OUT)/libclsm.a | $(T)
	$(CXX17) -Werror -o $@ $< $(OUT)/libclsm.a

$(T)/mocked $(T)/mocked_many: $(T)/%: tests/%.c $(SHARED_HEADERS) $(T)/between.o $(MOCK) $(OBJECTS)
	$(STRICT) -o $@ $< $(T)/between.o $(MOCK) $(OBJECTS) $(BETWEEN)

$(T)/checked: tests/checked.c $(SHARED_HEADERS) $(MOCK) $(PARTS:%=src/%.c) $(HEADERS)
	$(STRICT) -DCLSM_CHECKED -o $@ $< $(MOCK) $(PARTS:%=src/%.c)

# Its parts are those of src/ with tests/schedules/scheduled.h before them.
SCHEDULED = $(PARTS:%=$(T)/scheduled/%.o)
SCHEDULED_HEADERS = $(HEADERS) $(wildcard tests/schedules/*.h) tests/mock_core.h
SCHEDULES = $(wildcard tests/schedules/*.c)
COUNTED = $(call wrap,malloc calloc realloc free)

$(SCHEDULED): $(T)/scheduled/%.o: src/%.c $(SCHEDULED_HEADERS) | $(T)
	@mkdir -p $(@D)
	$(STRICT) -include tests/schedules/scheduled.h -c -o $@ $<

$(T)/schedules: $(SCHEDULES) $(SCHEDULED_HEADERS) $(MOCK) $(SCHEDULED)
	$(STRICT) -o $@ $(SCHEDULES) $(MOCK) $(SCHEDULED) $(COUNTED)

$(T)/between.o $(MOCK): $(T)/%.o: tests/%.c $(SHARED_HEADERS) tests/mock_store.h core/clsm_core.h $(OUT)/settings | $(T)
	$(STRICT) -c -o $@ $<

$(OUT)/libmock_core.a: $(MOCK)
	rm -f $@ && $(AR) rcs $@ $^

# ---- What must be there, by name

tools_of = @missing=; for tool in $(sort $(1)); do command -v $$tool >/dev/null || missing="$$missing $$tool"; done; \
	[ -z "$$missing" ] || { echo "capi: not there:$$missing" >&2; exit 1; }

BUILDING = $(CC) $(CXX) $(AR) $(LD) $(OBJCOPY) $(NM) $(NEEDS_RT)

AUDITING = $(firstword $(AUDIT)) $(if $(filter ../clsm,$(AUDIT)),rt)

.PHONY: tools audit-tools valgrind-tools
tools:
	$(call tools_of,$(BUILDING) $(CLANG) $(CLANGXX) cmake pkg-config readelf timeout diff python3 $(if $(SANITIZE),,cargo) $(AUDITING))
audit-tools:
	$(call tools_of,$(BUILDING) timeout $(AUDITING))
valgrind-tools:
	$(call tools_of,$(BUILDING) timeout valgrind)

# ---- Names and warnings

.PHONY: generated names warnings
# What is written from crates/clsm_c is as it would be written now.
generated:
	$(if $(wildcard ../crates),gen/core --check && gen/exports --check)

# The names that the libraries define are those of the header, and no others.
names: $(OUT)/libclsm.a $(OUT)/$(SHARED) $(OUT)/names
	$(NM) -g --defined-only $(OUT)/libclsm.a | sed -n 's/^[0-9a-f]* [A-Z] //p' | sort | diff $(OUT)/names -
	$(NM) -D --defined-only $(OUT)/$(SHARED) | sed -n 's/^[0-9a-f]* [^A] //p' | sed 's/@.*//' | sort | diff $(OUT)/names -

# What the headers say at the strictest settings of both compilers, in a program that uses them all.
STRICTEST_GCC = -Wsign-conversion -Wcast-qual -Wcast-align -Wdouble-promotion -Wformat=2 -Wnull-dereference -Wundef \
    -Wduplicated-cond -Wduplicated-branches -Wlogical-op
STRICTEST_GXX = $(STRICTEST_GCC) -Wold-style-cast -Wuseless-cast -Wnon-virtual-dtor -Woverloaded-virtual \
    -Wsuggest-override -Wextra-semi -Weffc++ -Wzero-as-null-pointer-constant
# Of all that clang knows, what asks for padding, other standards, or a file beside the header is left out.
STRICTEST_CLANG = -Weverything -Wno-unknown-warning-option -Wno-padded -Wno-unsafe-buffer-usage \
    -Wno-declaration-after-statement -Wno-weak-vtables -Wno-c++98-compat -Wno-c++98-compat-pedantic -Wno-c++20-compat

warnings:
	$(CC) -std=c11 $(WARNINGS) $(STRICTEST_GCC) -Werror -O2 -fsyntax-only -pthread tests/codecs.c
	$(CLANG) -std=c11 $(STRICTEST_CLANG) -Werror -fsyntax-only -pthread tests/codecs.c
	for standard in 17 20; do \
	    $(CXX) -std=c++$$standard $(WARNINGS) $(STRICTEST_GXX) -Werror -O2 -fsyntax-only -pthread tests/cxx17.cpp || exit 1; \
	    $(CLANGXX) -std=c++$$standard $(STRICTEST_CLANG) -Werror -fsyntax-only -pthread tests/cxx17.cpp || exit 1; \
	done
	for cc in $(CC) $(CLANG); do \
	    for file in core/*.c src/*.c tests/*.c $(SCHEDULES) examples/*.c; do \
	        $$cc -std=c11 $(WARNINGS) -Werror -O2 -I. -fsyntax-only -pthread $$file || exit 1; \
	    done; \
	    $$cc -std=c11 $(WARNINGS) -Werror -O2 -fsyntax-only -pthread -DCLSM_CHECKED src/*.c || exit 1; \
	    $$cc -std=c11 $(WARNINGS) -Werror -O2 -fsyntax-only -pthread -include tests/schedules/scheduled.h src/*.c || exit 1; \
	done
	for cxx in $(CXX) $(CLANGXX); do \
	    $$cxx -std=c++11 $(WARNINGS) -Werror -fsyntax-only -x c++-header clsm.h || exit 1; \
	    $$cxx -std=c++11 $(WARNINGS) -Werror -fsyntax-only -pthread tests/cxx.cpp || exit 1; \
	    for standard in 17 20; do \
	        for file in $(CXX_HEADERS); do \
	            $$cxx -std=c++$$standard $(WARNINGS) -Werror -fsyntax-only -x c++-header $$file || exit 1; \
	        done; \
	        for file in tests/cxx17.cpp examples/*.cpp; do \
	            $$cxx -std=c++$$standard $(WARNINGS) -Werror -I. -fsyntax-only -pthread $$file || exit 1; \
	        done; \
	    done; \
	done

# ---- Runs

ROUNDS = $(if $(SANITIZE),2000,20000)
EXAMPLES = $(patsubst examples/%.c,example-%,$(wildcard examples/*.c)) $(patsubst examples/%.cpp,example-cxx-%,$(wildcard examples/*.cpp))
# ThreadSanitizer has nothing to find where one thread runs.
ALONE = $(if $(filter thread,$(SANITIZE)),,schedules)
PROGRAMS = threads codecs refusals memory lives stack changes batch many tree transactions ranges copying edges full loops cxx cxx17 core mocked mocked_many checked $(ALONE) \
    $(EXAMPLES) \
    $(if $(SANITIZE),,shared) $(if $(filter address,$(SANITIZE)),closed) $(if $(AUDIT),audited)
BUILT = $(PROGRAMS:%=$(T)/%)
PLAIN = refusals memory lives stack changes batch many tree transactions ranges copying edges full loops cxx cxx17 core mocked mocked_many checked $(if $(filter address,$(SANITIZE)),closed)
AGAIN = $(MAKE) OUT=$(OUT) CORE=$(CORE)
# What is not for sanitizers; what the documents show is not in an archive that was packed.
PLANTING = "tests/planted $(OUT)/planted"
WHOLE = "$(T)/shared shared" "tests/interface $(MOCK) $(OBJECTS)" \
    "tests/examples rust $(OUT)/libclsm.a $(OUT)/rust" \
    "tests/examples python $(OUT)/libclsm.so" \
    $(if $(wildcard ../crates),"tests/documents $(OUT)/libclsm.a $(OUT)/libclsm.so $(OUT)/rust") \
    "tests/installed $(AGAIN)" $(PLANTING) "tests/packed $(AGAIN)"
AUDITS = $(foreach mix,usual many,"tests/audit $(T)/audited $(AUDIT_CALLS) $(mix) $(AUDIT_SEED) $(AUDIT)")
RUNS = "$(T)/threads $(ROUNDS)" "$(T)/threads $(ROUNDS) one" "$(T)/codecs tests/codecs.txt" $(PLAIN:%=$(T)/%) "tests/examples c $(T)" "tests/examples cxx $(T)" \
    $(patsubst %,"$(T)/% $(if $(SANITIZE),2)",$(ALONE)) \
    $(if $(SANITIZE),,$(WHOLE)) $(if $(AUDIT),$(AUDITS))
SMALL = "$(T)/threads 200" "$(T)/codecs tests/codecs.txt" "$(T)/loops 500" $(patsubst %,$(T)/%,$(filter-out stack loops,$(PLAIN)))
MEMCHECK = valgrind -q --error-exitcode=9 --leak-check=full --errors-for-leak-kinds=definite --show-leak-kinds=definite --fair-sched=yes

.PHONY: check check-mock check-valgrind check-audit check-planted check-packed check-redis
check: tools generated names warnings $(BUILT)
	@$(if $(AUDIT),,echo "capi: AUDIT is empty: no calls are audited")
	CC="$(CC)" tests/run $(GUARD) $(RUNS)

check-mock:
	$(MAKE) check OUT=$(OUT)/mock CORE=$(OUT)/mock/libmock_core.a

check-valgrind: valgrind-tools $(BUILT)
	@echo "capi: without stack, which reads stacks of threads that ended"
	WRAP="$(MEMCHECK)" tests/run $(GUARD) $(SMALL)

check-audit: audit-tools $(T)/audited
	tests/run $(GUARD) $(AUDITS)

check-redis: $(OUT)/$(SHARED) $(if $(HAS_PYTHON_HEADERS),extension)
	$(call tools_of,redis-server python3)
	tests/run $(GUARD) "tests/redis $(OUT)/libclsm.so"

check-planted: tools
	CC="$(CC)" tests/planted $(OUT)/planted

check-packed: tools
	CC="$(CC)" tests/run $(GUARD) "tests/packed $(AGAIN)"
