# The C extension of the Python package, in Python's stable ABI, with the library in it.

PYTHON ?= python3
# Nothing where this Python has not the stable ABI of 3.10.
PYTHON_HEADERS := $(shell $(PYTHON) -c 'import sys, sysconfig as config; \
    is_stable = sys.version_info >= (3, 10) and not config.get_config_var("Py_GIL_DISABLED"); \
    print(config.get_path("include") if is_stable else "")' 2>/dev/null)
HAS_PYTHON_HEADERS := $(if $(PYTHON_HEADERS),$(wildcard $(PYTHON_HEADERS)/Python.h))

NATIVE = $(OUT)/_native.abi3.so
NATIVE_PARTS = buffers many module rows snapshot store values waiting
NATIVE_OBJECTS = $(NATIVE_PARTS:%=$(OUT)/native/%.o)
NATIVE_C = $(C) -I. -isystem $(PYTHON_HEADERS) -fvisibility=hidden

.PHONY: extension extension-or-not
extension: $(NATIVE)

ifneq ($(HAS_PYTHON_HEADERS),)
extension-or-not: extension
else
extension-or-not:
	@echo "capi: without the headers of Python 3.10 or later there is no extension; Python calls libclsm.so by ctypes"
endif

$(OUT)/native/%.o: python/native/%.c python/native/native.h clsm.h $(OUT)/settings
	@mkdir -p $(@D)
	$(NATIVE_C) -c -o $@ $<

# It exports nothing but its one entry.
$(NATIVE): $(NATIVE_OBJECTS) $(OUT)/libclsm.a
	$(CC) -shared -pthread $(SANITIZED) $(LDFLAGS) -Wl,--exclude-libs,ALL -o $@ $(NATIVE_OBJECTS) $(OUT)/libclsm.a

# ---- Tests

.PHONY: native-warnings native-names
native-warnings:
	for cc in $(CC) $(CLANG); do \
	    for file in $(NATIVE_PARTS:%=python/native/%.c); do \
	        $$cc -std=c11 $(WARNINGS) -Werror -O2 -I. -isystem $(PYTHON_HEADERS) -fsyntax-only -pthread $$file || exit 1; \
	    done; \
	done

native-names: $(NATIVE)
	[ "$$($(NM) -D --defined-only $(NATIVE) | sed 's/.* //')" = PyInit__native ]

ifneq ($(HAS_PYTHON_HEADERS),)
check: native-warnings $(if $(SANITIZE),,native-names)
endif
