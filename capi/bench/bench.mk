# The benchmark beside other stores: bench/main.cpp; --help lists its options.
#
#     make bench BENCH="--workloads A,B --csv stores.csv"
#
# Stores are found when this is built: after one of their packages was installed, remove out/bench first.

B = $(OUT)/bench
BENCH ?=
BENCH_PARTS = main border clsm_store contest leveldb_store lmdb_store map_store mix_lines mixes options report tbb_store waits workload
CXX17 = $(CXX) -std=c++17 $(WARNINGS) $(CXXFLAGS) $(SANITIZED) -pthread

# The libraries of other stores that are installed. A part does without its own where the header is not there.
linked = echo 'int main() {}' | $(CXX) -x c++ -o /dev/null - $(1) 2>/dev/null && echo $(1)
OTHERS = $(foreach library,-lleveldb -llmdb -ltbb,$(shell $(call linked,$(library))))

.PHONY: bench bench-build bench-warnings bench-redis bench-python
bench: bench-build
	$(B)/bench $(BENCH)

bench-build: $(B)/bench $(OUT)/$(SHARED)

$(B)/%.o: bench/%.cpp bench/*.h clsm.h core/clsm_core.h
	@mkdir -p $(@D)
	$(CXX17) -c -o $@ $<

$(B)/bench: $(BENCH_PARTS:%=$(B)/%.o) $(OUT)/libclsm.a $(CORE)
	$(CXX17) $(LDFLAGS) -o $@ $(BENCH_PARTS:%=$(B)/%.o) $(OUT)/libclsm.a $(CORE) $(OTHERS) -ldl \
	    -Wl,-rpath,'$$ORIGIN/..'

bench-warnings:
	for cxx in $(CXX) $(CLANGXX); do \
	    for file in bench/*.cpp; do $$cxx -std=c++17 $(WARNINGS) -Werror -O2 -fsyntax-only -pthread $$file || exit 1; done; \
	done

# The server of texts in examples/ beside redis-server, by redis-benchmark: bench/redis --help.
REDIS ?=
bench-redis: $(OUT)/$(SHARED) $(if $(HAS_PYTHON_HEADERS),extension)
	bench/redis $(OUT)/libclsm.so $(REDIS)

# The calls of the Python package: bench/python --help.
ROUNDS_OF_PYTHON ?= 36
bench-python: $(OUT)/$(SHARED) $(if $(HAS_PYTHON_HEADERS),extension)
	bench/python $(OUT)/libclsm.so --rounds $(ROUNDS_OF_PYTHON)
